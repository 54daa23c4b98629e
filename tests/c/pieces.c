/* Holds ration_begin and ration_feed to docs/HOST.md, "Journals in pieces": a journal that is cut anywhere, with any allowance, is run as
 * ration_run runs it whole, under each write policy, and a call that is refused leaves what it must. A line for each difference, and status 1. It is
 * C and C++. */
#include <stdio.h>
#include <string.h>

#include "ration.h"

enum { RECORDS = 9, LEFT_OVER = 5, LENGTH = RATION_HEADER + RATION_RECORD * RECORDS + LEFT_OVER, ROOM = RATION_ANSWER * RECORDS };
enum { STOPPED = 255, UNTOUCHED = 170 };

/* the records of examples/nine.rpj, and bytes left over */
static const uint8_t journal[LENGTH] = {
    'R', 'P', 'J', 1, 0, 0, 0, 0,
    RATION_KIND_HCALL, 1, RATION_PIN_DATA, RATION_CALL_PIN, 0, 0, 0, 0,
    RATION_KIND_PIN, 1, RATION_PIN_DATA, 0, 0, 0, 0, 0,
    RATION_KIND_CHMOD, 0, 0, 0, 0, 0, 0, 0,
    RATION_KIND_HCALL, 0, 1, RATION_CALL_NEW, 0, 0, 0, 0,
    RATION_KIND_NEW, 0, 1, 0, 0, 0, 0, 0,
    RATION_KIND_CHMOD, 0, 0, 0, 0, 0, 0, 0,
    RATION_KIND_WRITE, 0, 0, 0, 44, 1, 0, 0,
    RATION_KIND_READ, 0, 0, 0, 0, 0, 0, 0,
    RATION_KIND_READ, 1, 0, 0, 0, 0, 0, 0,
    11, 12, 13, 14, 15,
};

static uint8_t policy; /* of the hosts that are started */
static uint8_t state[RATION_SIZE], kept[RATION_KEPT];
static uint8_t answers[ROOM + RATION_ANSWER];                 /* of one call, and what must stay */
static uint8_t told[ROOM];                                    /* of all calls since anew() */
static size_t run_before;                                     /* records run since anew() */
static uint8_t whole_state[RATION_SIZE], whole_answers[ROOM]; /* of the journal, run whole */
static unsigned compared, differences;

static void same(const char *what, const char *part, size_t found, size_t expected) {
    compared++;
    if (found != expected) {
        differences++;
        printf("%s: %s is %zu, not %zu\n", what, part, found, expected);
    }
}

static void same_bytes(const char *what, const char *part, const uint8_t *found, const uint8_t *expected, size_t length) {
    same(what, part, memcmp(found, expected, length) == 0, true);
}

static size_t smaller(size_t a, size_t b) {
    return a < b ? a : b;
}

/* The fresh machine, and no byte of a journal taken. */
static void anew(void) {
    ration_fresh_with(state, policy);
    ration_begin(kept);
    run_before = 0;
    memset(told, UNTOUCHED, sizeof told);
}

/* What is kept once so many bytes of the journal were taken. */
static void holds(const char *what, size_t taken) {
    uint8_t expected[RATION_KEPT] = {0};
    size_t header = smaller(taken, RATION_HEADER);
    size_t begun = (taken - header) % RATION_RECORD;
    expected[RATION_KEPT_HEADER] = (uint8_t)header;
    expected[RATION_KEPT_BEGUN] = (uint8_t)begun;
    memcpy(expected + RATION_KEPT_BYTES, journal + taken - begun, begun);
    same_bytes(what, "what is kept", kept, expected, sizeof expected);
}

/* One call, of which the number is to be this one; answers how many bytes it took. */
static size_t feeds(const char *what, const uint8_t *piece, size_t length, size_t allowance, bool last, size_t room, int number) {
    static uint8_t state_before[RATION_SIZE], untouched[sizeof answers];
    uint8_t kept_before[RATION_KEPT];
    size_t records = UNTOUCHED, bytes = UNTOUCHED;
    memcpy(state_before, state, sizeof state);
    memcpy(kept_before, kept, sizeof kept);
    memset(untouched, UNTOUCHED, sizeof untouched);
    memset(answers, UNTOUCHED, sizeof answers);
    uint8_t answered = ration_feed(state, kept, piece, length, allowance, last, answers, room, &records, &bytes);
    same(what, "the number", answered, (size_t)number);
    same(what, "records at most the allowance", records <= allowance && run_before + records <= RECORDS, true);
    same_bytes(what, "the rest of the answers", answers + RATION_ANSWER * records, untouched, sizeof answers - RATION_ANSWER * records);
    if (answered == RATION_DONE) {
        memcpy(told + RATION_ANSWER * run_before, answers, RATION_ANSWER * records);
        run_before += records;
        return bytes;
    }
    same(what, "records of a refused call", records, 0);
    same(what, "bytes of a refused call", bytes, 0);
    same_bytes(what, "the state", state, state_before, sizeof state);
    if (answered == RATION_REFUSED_HEADER) {
        kept_before[RATION_KEPT_HEADER] = STOPPED;
    }
    same_bytes(what, "what is kept", kept, kept_before, sizeof kept);
    return bytes;
}

/* Offers the journal's bytes from one place to another until they are taken. */
static void feeds_all(const char *what, size_t from, size_t to, size_t allowance) {
    do {
        from += feeds(what, journal + from, to - from, allowance, to == LENGTH, ROOM, RATION_DONE);
        holds(what, from);
    } while (from < to && differences == 0);
    same(what, "the bytes taken", from, to);
}

static void ends_as_the_whole(const char *what) {
    same(what, "the records run", run_before, RECORDS);
    same_bytes(what, "the answers", told, whole_answers, sizeof told);
    same_bytes(what, "the state", state, whole_state, sizeof state);
    holds(what, LENGTH);
}

static void sizes(void) {
    same("RATION_SIZE", "ration_size()", ration_size(), RATION_SIZE);
    same("RATION_ANSWER", "ration_answer_size()", ration_answer_size(), RATION_ANSWER);
    same("RATION_REPORT", "ration_report_size()", ration_report_size(), RATION_REPORT);
    same("RATION_KEPT", "ration_kept_size()", ration_kept_size(), RATION_KEPT);
}

static void whole(void) {
    uint8_t report[RATION_REPORT];
    ration_fresh_with(whole_state, policy);
    ration_run(whole_state, journal, LENGTH, whole_answers, ROOM, report);
    same("the journal", "the report's number", report[RATION_REPORT_NUMBER], RATION_DONE);
    same("the journal", "taken", report[RATION_REPORT_TAKEN], RECORDS);
    same("the journal", "left over", report[RATION_REPORT_LEFT_OVER], LEFT_OVER);
}

static void begins(void) {
    static const uint8_t zeros[RATION_KEPT] = {0};
    memset(kept, 255, sizeof kept);
    ration_begin(kept);
    same_bytes("ration_begin", "what is kept", kept, zeros, sizeof zeros);
}

/* Three pieces, cut at any two places, with each allowance by turns; and pieces of one length, empty ones between them. */
static void cuts(void) {
    char what[64];
    for (size_t i = 0; i <= LENGTH; i++) {
        for (size_t j = i; j <= LENGTH; j++) {
            size_t allowance = 1 + (i + j) % (RECORDS + 1);
            snprintf(what, sizeof what, "cut at %zu and %zu, allowance %zu", i, j, allowance);
            anew();
            feeds_all(what, 0, i, allowance);
            feeds_all(what, i, j, allowance);
            feeds_all(what, j, LENGTH, allowance);
            ends_as_the_whole(what);
        }
    }
    for (size_t length = 1; length <= LENGTH; length++) {
        snprintf(what, sizeof what, "pieces of %zu", length);
        anew();
        for (size_t from = 0; from < LENGTH; from += length) {
            feeds_all(what, from, from, RECORDS);
            feeds_all(what, from, smaller(from + length, LENGTH), RECORDS);
        }
        ends_as_the_whole(what);
    }
}

/* The first bytes as one piece, then all others with each allowance: how many records are run and bytes taken. */
static void allowances(void) {
    char what[64];
    for (size_t first = RATION_HEADER; first < RATION_HEADER + RATION_RECORD; first++) {
        for (size_t allowance = 0; allowance <= RECORDS + 1; allowance++) {
            snprintf(what, sizeof what, "allowance %zu behind %zu bytes", allowance, first);
            anew();
            same(what, "the first bytes taken", feeds(what, journal, first, 0, false, 0, RATION_DONE), first);
            size_t bytes = feeds(what, journal + first, LENGTH - first, allowance, true, ROOM, RATION_DONE);
            same(what, "the records run", run_before, smaller(allowance, RECORDS));
            size_t taken = RATION_HEADER + RATION_RECORD * allowance;
            if (allowance == 0) {
                taken = first;
            } else if (allowance >= RECORDS) {
                taken = LENGTH;
            }
            same(what, "the bytes taken", first + bytes, taken);
            holds(what, taken);
        }
    }
    anew();
    same("no allowance", "the header's bytes taken", feeds("no allowance", journal, LENGTH, 0, true, 0, RATION_DONE), RATION_HEADER);
    holds("no allowance", RATION_HEADER);
    anew();
    feeds("the largest allowance", journal, LENGTH, SIZE_MAX, true, ROOM, RATION_DONE);
    ends_as_the_whole("the largest allowance");
}

/* A buffer of one byte less than the records to be run need, and one of just as many; a record that was begun counts. */
static void rooms(void) {
    char what[64];
    for (size_t first = 0; first < RATION_HEADER + RATION_RECORD; first++) {
        for (size_t allowance = 1; allowance <= RECORDS; allowance++) {
            snprintf(what, sizeof what, "room for %zu records behind %zu bytes", allowance, first);
            anew();
            feeds(what, journal, first, 0, false, 0, RATION_DONE);
            size_t room = RATION_ANSWER * allowance;
            feeds(what, journal + first, LENGTH - first, allowance, true, room - 1, RATION_REFUSED_ANSWER_BUFFER);
            feeds(what, journal + first, LENGTH - first, SIZE_MAX, true, ROOM - 1, RATION_REFUSED_ANSWER_BUFFER);
            feeds(what, journal + first, LENGTH - first, allowance, true, room, RATION_DONE);
            same(what, "the records run", run_before, allowance);
        }
    }
}

/* A wrong byte at each place of the header, cut before it or not: 13, and again for the right bytes, until ration_begin. */
static void wrong_headers(void) {
    char what[64];
    uint8_t wrong[LENGTH];
    for (size_t place = 0; place < RATION_HEADER; place++) {
        memcpy(wrong, journal, LENGTH);
        wrong[place] ^= 1;
        for (size_t first = 0; first <= place; first++) {
            snprintf(what, sizeof what, "wrong byte %zu behind %zu", place, first);
            anew();
            feeds(what, wrong, first, RECORDS, false, ROOM, RATION_DONE);
            feeds(what, wrong + first, place + 1 - first, RECORDS, false, 0, RATION_REFUSED_HEADER);
            same(what, "RATION_KEPT_HEADER", kept[RATION_KEPT_HEADER], STOPPED);
            feeds(what, journal + first, LENGTH - first, RECORDS, false, ROOM, RATION_REFUSED_HEADER);
            feeds(what, journal, 0, 0, false, 0, RATION_REFUSED_HEADER);
            ration_begin(kept);
            feeds(what, wrong, LENGTH, RECORDS, true, ROOM, RATION_REFUSED_HEADER);
            ration_begin(kept);
            feeds_all(what, 0, LENGTH, RECORDS);
            ends_as_the_whole(what);
        }
    }
}

static void short_headers(void) {
    char what[64];
    for (size_t length = 0; length < RATION_HEADER; length++) {
        snprintf(what, sizeof what, "a header of %zu bytes", length);
        anew();
        feeds(what, journal, length, RECORDS, true, ROOM, RATION_REFUSED_HEADER);
        anew();
        feeds_all(what, 0, length, RECORDS);
        feeds(what, journal, 0, RECORDS, true, ROOM, RATION_REFUSED_HEADER);
    }
    anew();
    feeds_all("a header alone", 0, RATION_HEADER, RECORDS);
    feeds("a header alone", journal, 0, RECORDS, true, 0, RATION_DONE);
    holds("a header alone", RATION_HEADER);
}

/* Each count of what is kept at each number, with other bytes behind them: refused past its range, and zeros where it is not. */
static void damaged(void) {
    char what[64];
    for (int count = 0; count < 256; count++) {
        snprintf(what, sizeof what, "a header count of %d", count);
        anew();
        kept[RATION_KEPT_HEADER] = (uint8_t)count;
        feeds(what, journal + (count < RATION_HEADER ? count : 0), 0, 1, false, 0, count <= RATION_HEADER ? RATION_DONE : RATION_REFUSED_HEADER);
        snprintf(what, sizeof what, "a begun count of %d", count);
        memset(kept, 99, sizeof kept);
        kept[RATION_KEPT_HEADER] = RATION_HEADER;
        kept[RATION_KEPT_BEGUN] = (uint8_t)count;
        bool refused = count >= RATION_RECORD;
        feeds(what, journal, 0, 1, false, 0, refused ? RATION_REFUSED_HEADER : RATION_DONE);
        for (int i = 0; i < RATION_KEPT - RATION_KEPT_BYTES; i++) {
            same(what, "a byte of what is kept", kept[RATION_KEPT_BYTES + i], refused || i < count ? 99 : 0);
        }
    }
    /* 1 comes before 13 and 15, and is not remembered */
    anew();
    state[0] ^= 255;
    feeds("a damaged state", journal, LENGTH, RECORDS, true, 0, RATION_REFUSED_STATE);
    kept[RATION_KEPT_HEADER] = STOPPED;
    feeds("a damaged state", journal, LENGTH, RECORDS, true, ROOM, RATION_REFUSED_STATE);
    feeds("a damaged state", journal, 0, 0, false, 0, RATION_REFUSED_STATE);
}

int main(void) {
    sizes();
    /* bytes of other sizes are not lent */
    for (policy = RATION_WRITE_BACK; policy <= RATION_WRITE_THROUGH && differences == 0; policy++) {
        whole();
        begins();
        cuts();
        allowances();
        rooms();
        wrong_headers();
        short_headers();
        damaged();
    }
    printf("%u compared, %u differ\n", compared, differences);
    return differences == 0 ? 0 : 1;
}
