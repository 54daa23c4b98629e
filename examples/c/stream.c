/* Runs a journal from standard input as it arrives, of any length, in fixed buffers. It prints what `./rpj --stream` prints, and ends with
 * the same status: 1 if the journal is refused, 2 if it cannot be read or its answers cannot be written. */
#define _POSIX_C_SOURCE 200809L
#include <errno.h>
#include <inttypes.h>
#include <stdio.h>
#include <unistd.h>

#include "ration.h"

enum { PIECE = 4096, AT_ONCE = 64 }; /* the most bytes of a piece, and the most records of a call */

static uint8_t state[RATION_SIZE], kept[RATION_KEPT];
static uint8_t piece[PIECE], answers[RATION_ANSWER * AT_ONCE];
static uint64_t accepted, refused;
static bool header_printed;

static uint32_t word(const uint8_t *bytes) {
    return bytes[0] | (uint32_t)bytes[1] << 8 | (uint32_t)bytes[2] << 16 | (uint32_t)bytes[3] << 24;
}

static void print_answers(size_t records) {
    if (!header_printed && kept[RATION_KEPT_HEADER] == RATION_HEADER) {
        puts("RPJ 1");
        header_printed = true;
    }
    for (size_t i = 0; i < records; i++) {
        const uint8_t *answer = answers + RATION_ANSWER * i;
        uint8_t number = answer[RATION_ANSWER_NUMBER];
        accepted += number == RATION_DONE;
        refused += number != RATION_DONE;
        printf("%" PRIu64 " %u %" PRIu32 "\n", accepted + refused, number, word(answer + RATION_ANSWER_VALUE));
    }
}

/* Offers the piece until all of it is taken. Answers RATION_DONE, or the refusal's number. */
static uint8_t feed(size_t length, bool last) {
    size_t from = 0, records, bytes;
    do {
        uint8_t number = ration_feed(state, kept, piece + from, length - from, AT_ONCE, last, answers, sizeof answers, &records, &bytes);
        if (number != RATION_DONE) {
            return number;
        }
        print_answers(records);
        from += bytes;
    } while (from < length);
    return RATION_DONE;
}

/* Waits for what arrives next: the number of its bytes, 0 at the end of the input, less where it cannot be read. */
static ssize_t read_piece(void) {
    ssize_t length;
    do {
        length = read(STDIN_FILENO, piece, sizeof piece);
    } while (length < 0 && errno == EINTR);
    return length;
}

/* Whoever waits for the lines has them then. */
static bool written(void) {
    return fflush(stdout) == 0 && !ferror(stdout);
}

/* Runs what arrives until the input ends or is refused: the status. */
static int run(void) {
    ssize_t length;
    do {
        length = read_piece();
        if (length < 0) {
            perror("standard input");
            return 2;
        }
        uint8_t number = feed((size_t)length, length == 0);
        if (number != RATION_DONE) {
            printf("refused %u\n", number);
            return 1;
        }
        if (!written()) {
            return 2;
        }
    } while (length != 0);
    if (kept[RATION_KEPT_BEGUN] != 0) {
        printf("cut %u\n", kept[RATION_KEPT_BEGUN]);
    }
    printf("done %" PRIu64 " refused %" PRIu64 "\n", accepted, refused);
    return 0;
}

int main(void) {
    if (ration_size() != RATION_SIZE || ration_answer_size() != RATION_ANSWER || ration_kept_size() != RATION_KEPT) {
        fputs("libration.a has other sizes than ration.h\n", stderr);
        return 2;
    }
    ration_fresh(state);
    ration_begin(kept);
    int status = run();
    return written() ? status : 2;
}
