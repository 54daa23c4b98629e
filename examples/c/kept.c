/* A host that is saved, and loaded by another: what a guest wrote on the first is read on the second. It does the records of
 * examples/nine.rpj that change a host, saves it, and prints what the program prints of examples/kept.rpj from that image. */
#include <stdio.h>
#include <string.h>

#include "ration.h"

static uint32_t word(const uint8_t *bytes) {
    return bytes[0] | (uint32_t)bytes[1] << 8 | (uint32_t)bytes[2] << 16 | (uint32_t)bytes[3] << 24;
}

static void act(uint8_t *state, uint8_t kind, uint8_t a, uint8_t b, uint8_t call, uint32_t value, uint8_t answer[RATION_ANSWER]) {
    uint8_t record[RATION_RECORD] = {0};
    record[RATION_RECORD_KIND] = kind;
    record[RATION_RECORD_A] = a;
    record[RATION_RECORD_B] = b;
    record[RATION_RECORD_CALL] = call;
    for (int i = RATION_RECORD_VALUE; i < RATION_RECORD; i++, value >>= 8) {
        record[i] = (uint8_t)value;
    }
    ration_step(state, record, sizeof record, answer);
}

/* A host on which guest 0 wrote 300 at address 0. Nothing of it is left but its image. */
static uint8_t first_host(uint8_t image[RATION_IMAGE]) {
    uint8_t state[RATION_SIZE], answer[RATION_ANSWER];
    ration_fresh(state);
    act(state, RATION_KIND_HCALL, 1, RATION_PIN_DATA, RATION_CALL_PIN, 0, answer);
    act(state, RATION_KIND_PIN, 1, RATION_PIN_DATA, 0, 0, answer);
    act(state, RATION_KIND_CHMOD, 0, 0, 0, 0, answer);
    act(state, RATION_KIND_HCALL, 0, 1, RATION_CALL_NEW, 0, answer);
    act(state, RATION_KIND_NEW, 0, 1, 0, 0, answer);
    act(state, RATION_KIND_CHMOD, 0, 0, 0, 0, answer);
    act(state, RATION_KIND_WRITE, 0, 0, 0, 300, answer);
    return ration_save(state, image, RATION_IMAGE);
}

int main(void) {
    uint8_t image[RATION_IMAGE], state[RATION_SIZE], answer[RATION_ANSWER];

    if (ration_size() != RATION_SIZE || ration_answer_size() != RATION_ANSWER || ration_image_size() != RATION_IMAGE) {
        fputs("libration.a has other sizes than ration.h\n", stderr);
        return 1;
    }
    if (first_host(image) != RATION_DONE) {
        fputs("the host cannot be saved\n", stderr);
        return 1;
    }
    memset(state, 255, sizeof state); /* a damaged host, which is loaded over */
    if (ration_load(state, image, sizeof image) != RATION_DONE) {
        fputs("the image cannot be loaded\n", stderr);
        return 1;
    }
    act(state, RATION_KIND_READ, 0, 0, 0, 0, answer);
    puts("RPJ 1");
    printf("1 %u %u\n", answer[RATION_ANSWER_NUMBER], word(answer + RATION_ANSWER_VALUE));
    printf("done %u refused %u\n", answer[RATION_ANSWER_NUMBER] == RATION_DONE, answer[RATION_ANSWER_NUMBER] != RATION_DONE);
    return ration_valid(state) ? 0 : 1;
}
