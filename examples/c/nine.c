/* Runs the nine records of docs/HOST.md, first as a journal and then record by record, and prints what the program prints. */
#include <stdio.h>
#include <string.h>

#include "ration.h"

static const struct {
    uint8_t kind, a, b, call;
    uint32_t value;
} actions[] = {
    {RATION_KIND_HCALL, 1, RATION_PIN_DATA, RATION_CALL_PIN, 0}, /* guest 0 asks for a data page at physical address 1 */
    {RATION_KIND_PIN, 1, RATION_PIN_DATA, 0, 0},                 /* the host gives it one */
    {RATION_KIND_CHMOD, 0, 0, 0, 0},                             /* and lets the guest run on */
    {RATION_KIND_HCALL, 0, 1, RATION_CALL_NEW, 0},               /* it asks for that page at virtual address 0 */
    {RATION_KIND_NEW, 0, 1, 0, 0},
    {RATION_KIND_CHMOD, 0, 0, 0, 0},
    {RATION_KIND_WRITE, 0, 0, 0, 300},
    {RATION_KIND_READ, 0, 0, 0, 0},
    {RATION_KIND_READ, 1, 0, 0, 0}, /* nothing is mapped there */
};

enum { RECORDS = sizeof actions / sizeof actions[0] };

static uint32_t word(const uint8_t *bytes) {
    return bytes[0] | (uint32_t)bytes[1] << 8 | (uint32_t)bytes[2] << 16 | (uint32_t)bytes[3] << 24;
}

static void put_word(uint8_t *bytes, uint32_t value) {
    for (int i = 0; i < 4; i++) {
        bytes[i] = (uint8_t)(value >> 8 * i);
    }
}

/* The header, then each action's record. */
static void put_journal(uint8_t journal[RATION_HEADER + RATION_RECORD * RECORDS]) {
    memcpy(journal, RATION_HEADER_BYTES, RATION_HEADER);
    for (size_t i = 0; i < RECORDS; i++) {
        uint8_t *record = journal + RATION_HEADER + RATION_RECORD * i;
        record[RATION_RECORD_KIND] = actions[i].kind;
        record[RATION_RECORD_A] = actions[i].a;
        record[RATION_RECORD_B] = actions[i].b;
        record[RATION_RECORD_CALL] = actions[i].call;
        put_word(record + RATION_RECORD_VALUE, actions[i].value);
    }
}

int main(void) {
    uint8_t state[RATION_SIZE], again[RATION_SIZE];
    uint8_t journal[RATION_HEADER + RATION_RECORD * RECORDS], answers[RATION_ANSWER * RECORDS];
    uint8_t answer[RATION_ANSWER], report[RATION_REPORT];

    if (ration_size() != RATION_SIZE || ration_answer_size() != RATION_ANSWER || ration_report_size() != RATION_REPORT) {
        fputs("libration.a has other sizes than ration.h\n", stderr);
        return 1;
    }
    put_journal(journal);
    ration_fresh(state);
    ration_run(state, journal, sizeof journal, answers, sizeof answers, report);
    if (word(report + RATION_REPORT_NUMBER) != RATION_DONE) {
        printf("refused %u\n", word(report + RATION_REPORT_NUMBER));
        return 1;
    }
    puts("RPJ 1");
    ration_fresh(again);
    for (size_t i = 0; i < RECORDS; i++) {
        ration_step(again, journal + RATION_HEADER + RATION_RECORD * i, RATION_RECORD, answer);
        if (memcmp(answer, answers + RATION_ANSWER * i, RATION_ANSWER) != 0) {
            return 1;
        }
        printf("%zu %u %u\n", i + 1, answer[RATION_ANSWER_NUMBER], word(answer + RATION_ANSWER_VALUE));
    }
    printf("done %u refused %u\n", word(report + RATION_REPORT_ACCEPTED), word(report + RATION_REPORT_REFUSED));
    return memcmp(state, again, RATION_SIZE) == 0 && ration_valid(state) && ration_free_pages(state) == 55 ? 0 : 1;
}
