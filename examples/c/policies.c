/* Does the nine records of docs/HOST.md on two hosts, one of each write policy: their answers are the same, and under write-through memory
 * has what was written at once. It prints what the program prints, with --write-through and without. */
#include <stdio.h>
#include <string.h>

#include "ration.h"

static const uint8_t records[][RATION_RECORD] = {
    {RATION_KIND_HCALL, 1, RATION_PIN_DATA, RATION_CALL_PIN},
    {RATION_KIND_PIN, 1, RATION_PIN_DATA},
    {RATION_KIND_CHMOD},
    {RATION_KIND_HCALL, 0, 1, RATION_CALL_NEW},
    {RATION_KIND_NEW, 0, 1},
    {RATION_KIND_CHMOD},
    {RATION_KIND_WRITE, 0, 0, 0, 44, 1}, /* 300 */
    {RATION_KIND_READ, 0},
    {RATION_KIND_READ, 1},
};

/* Where the value of page 8 stands, the first that is pinned: docs/STATE.md, memory. */
enum { RECORDS = sizeof records / sizeof records[0], MEMORY_OF_8 = 4434 + 4 * 8 };

static uint32_t word(const uint8_t *bytes) {
    return bytes[0] | (uint32_t)bytes[1] << 8 | (uint32_t)bytes[2] << 16 | (uint32_t)bytes[3] << 24;
}

int main(void) {
    uint8_t back[RATION_SIZE], through[RATION_SIZE], answer[RATION_ANSWER], other[RATION_ANSWER];
    unsigned accepted = 0;

    if (ration_size() != RATION_SIZE || ration_answer_size() != RATION_ANSWER) {
        fputs("libration.a has other sizes than ration.h\n", stderr);
        return 1;
    }
    ration_fresh_with(back, RATION_WRITE_BACK);
    ration_fresh_with(through, RATION_WRITE_THROUGH);
    puts("RPJ 1");
    for (unsigned i = 0; i < RECORDS; i++) {
        ration_step(back, records[i], RATION_RECORD, answer);
        ration_step(through, records[i], RATION_RECORD, other);
        if (memcmp(answer, other, RATION_ANSWER) != 0) {
            return 1;
        }
        accepted += answer[RATION_ANSWER_NUMBER] == RATION_DONE;
        printf("%u %u %u\n", i + 1, answer[RATION_ANSWER_NUMBER], word(answer + RATION_ANSWER_VALUE));
    }
    printf("done %u refused %u\n", accepted, RECORDS - accepted);
    return word(back + MEMORY_OF_8) == 0 && word(through + MEMORY_OF_8) == 300 && ration_policy(through) == RATION_WRITE_THROUGH ? 0 : 1;
}
