/* Stands in for libration.a: one of its sizes is one byte more, that which RATION_OTHER names ("state", "answer", "report", "image" or "kept").
 * A program that lends it a byte all the same is ended. */
#include <stdlib.h>
#include <string.h>

#include "ration.h"

static size_t size_of(const char *name, size_t size) {
    const char *other = getenv("RATION_OTHER");
    return other != NULL && strcmp(other, name) == 0 ? size + 1 : size;
}

size_t ration_size(void) {
    return size_of("state", RATION_SIZE);
}

size_t ration_answer_size(void) {
    return size_of("answer", RATION_ANSWER);
}

size_t ration_report_size(void) {
    return size_of("report", RATION_REPORT);
}

size_t ration_image_size(void) {
    return size_of("image", RATION_IMAGE);
}

size_t ration_kept_size(void) {
    return size_of("kept", RATION_KEPT);
}

void ration_fresh(uint8_t state[RATION_SIZE]) {
    (void)state;
    abort();
}

uint8_t ration_fresh_with(uint8_t state[RATION_SIZE], uint8_t policy) {
    (void)state, (void)policy;
    abort();
}

uint8_t ration_policy(const uint8_t state[RATION_SIZE]) {
    (void)state;
    abort();
}

bool ration_valid(const uint8_t state[RATION_SIZE]) {
    (void)state;
    abort();
}

uint32_t ration_free_pages(const uint8_t state[RATION_SIZE]) {
    (void)state;
    abort();
}

void ration_step(uint8_t state[RATION_SIZE], const uint8_t *record, size_t length, uint8_t answer[RATION_ANSWER]) {
    (void)state, (void)record, (void)length, (void)answer;
    abort();
}

void ration_run(uint8_t state[RATION_SIZE], const uint8_t *journal, size_t length, uint8_t *answers, size_t room,
                uint8_t report[RATION_REPORT]) {
    (void)state, (void)journal, (void)length, (void)answers, (void)room, (void)report;
    abort();
}

uint8_t ration_save(const uint8_t state[RATION_SIZE], uint8_t *image, size_t length) {
    (void)state, (void)image, (void)length;
    abort();
}

uint8_t ration_load(uint8_t state[RATION_SIZE], const uint8_t *image, size_t length) {
    (void)state, (void)image, (void)length;
    abort();
}

uint8_t ration_open(uint8_t state[RATION_SIZE], const uint8_t *image, size_t length) {
    (void)state, (void)image, (void)length;
    abort();
}

uint8_t ration_broken(const uint8_t state[RATION_SIZE], uint8_t rule, uint8_t *part, uint16_t *place) {
    (void)state, (void)rule, (void)part, (void)place;
    abort();
}

void ration_begin(uint8_t kept[RATION_KEPT]) {
    (void)kept;
    abort();
}

uint8_t ration_feed(uint8_t state[RATION_SIZE], uint8_t kept[RATION_KEPT], const uint8_t *piece, size_t length, size_t allowance,
                    bool last, uint8_t *answers, size_t room, size_t *records, size_t *bytes) {
    (void)state, (void)kept, (void)piece, (void)length, (void)allowance, (void)last, (void)answers, (void)room, (void)records, (void)bytes;
    abort();
}
