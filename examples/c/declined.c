/* Does the six records of examples/declined.rpj: the host declines a call that it cannot serve, and the guest runs on. It prints what
 * the program prints. */
#include <stdio.h>

#include "ration.h"

static uint8_t state[RATION_SIZE];
static unsigned records, accepted;

static uint32_t word(const uint8_t *bytes) {
    return bytes[0] | (uint32_t)bytes[1] << 8 | (uint32_t)bytes[2] << 16 | (uint32_t)bytes[3] << 24;
}

/* Does a record without a value, and prints its answer. */
static void act(uint8_t kind, uint8_t a, uint8_t b, uint8_t call) {
    uint8_t record[RATION_RECORD] = {0}, answer[RATION_ANSWER];
    record[RATION_RECORD_KIND] = kind;
    record[RATION_RECORD_A] = a;
    record[RATION_RECORD_B] = b;
    record[RATION_RECORD_CALL] = call;
    ration_step(state, record, sizeof record, answer);
    records++;
    accepted += answer[RATION_ANSWER_NUMBER] == RATION_DONE;
    printf("%u %u %u\n", records, answer[RATION_ANSWER_NUMBER], word(answer + RATION_ANSWER_VALUE));
}

int main(void) {
    if (ration_size() != RATION_SIZE || ration_answer_size() != RATION_ANSWER) {
        fputs("libration.a has other sizes than ration.h\n", stderr);
        return 1;
    }
    ration_fresh(state);
    puts("RPJ 1");
    act(RATION_KIND_HCALL, 0, RATION_PIN_DATA, RATION_CALL_PIN); /* guest 0 asks for a page at physical address 0, where it has one */
    act(RATION_KIND_PIN, 0, RATION_PIN_DATA, 0);                 /* the host cannot give it another there */
    act(RATION_KIND_CHMOD, 0, 0, 0);                             /* and the guest cannot run while its call is pending */
    act(RATION_KIND_DROP, 0, 0, 0);                              /* so the host declines the call of guest 0 */
    act(RATION_KIND_CHMOD, 0, 0, 0);                             /* and lets it run on */
    act(RATION_KIND_HCALL, 1, RATION_PIN_DATA, RATION_CALL_PIN); /* the guest asks for a page elsewhere */
    printf("done %u refused %u\n", accepted, records - accepted);
    return ration_valid(state) ? 0 : 1;
}
