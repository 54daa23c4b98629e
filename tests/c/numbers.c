/* Holds every constant of include/ration.h to the machine, but for those of what is kept and of a check, which pieces.c and checks.c have:
 * each kind is accepted once and each refusal given once, by records that are put together and answers and reports that are read by the
 * header's places. A line for each difference, and status 1. It is C and C++. */
#include <stdio.h>
#include <string.h>

#include "ration.h"

enum { KINDS = RATION_KIND_DROP + 1, NUMBERS = RATION_REFUSED_IMAGE + 1, POLICIES = RATION_WRITE_THROUGH + 1, HOST_PAGES = 4 };
/* of docs/STATE.md: page 8, the first one that is pinned, in memory; and the policy */
enum { MEMORY_OF_8 = 4434 + 4 * 8, POLICY = RATION_SIZE - 1 };

static uint8_t state[RATION_SIZE];
static uint8_t report[RATION_REPORT];
static uint8_t journal[RATION_HEADER + RATION_RECORD * (RATION_RECORD_LIMIT + 2)];
static uint8_t answers[RATION_ANSWER * (RATION_RECORD_LIMIT + 1)];
static uint8_t image[RATION_IMAGE + 1];
static bool accepted[KINDS], given[NUMBERS];
static unsigned compared, differences;

static void same(const char *what, const char *part, uint32_t found, uint32_t expected) {
    compared++;
    if (found != expected) {
        differences++;
        printf("%s: %s is %u, not %u\n", what, part, (unsigned)found, (unsigned)expected);
    }
}

static uint32_t word(const uint8_t *bytes) {
    return bytes[0] | (uint32_t)bytes[1] << 8 | (uint32_t)bytes[2] << 16 | (uint32_t)bytes[3] << 24;
}

static void put_record(uint8_t *record, int kind, int a, int b, int call, uint32_t value) {
    memset(record, 0, RATION_RECORD);
    record[RATION_RECORD_KIND] = (uint8_t)kind;
    record[RATION_RECORD_A] = (uint8_t)a;
    record[RATION_RECORD_B] = (uint8_t)b;
    record[RATION_RECORD_CALL] = (uint8_t)call;
    for (int i = 0; i < 4; i++) {
        record[RATION_RECORD_VALUE + i] = (uint8_t)(value >> 8 * i);
    }
}

/* One record on the state: its answer's number and value must be these, and the three bytes between them zeros. */
static void gives(const char *what, int kind, int a, int b, int call, uint32_t value, int number, uint32_t answered) {
    uint8_t record[RATION_RECORD], answer[RATION_ANSWER];
    put_record(record, kind, a, b, call, value);
    memset(answer, 255, sizeof answer);
    ration_step(state, record, sizeof record, answer);
    same(what, "the answer's number", answer[RATION_ANSWER_NUMBER], (uint32_t)number);
    same(what, "the number with its zeros", word(answer + RATION_ANSWER_NUMBER), (uint32_t)number);
    same(what, "the answer's value", word(answer + RATION_ANSWER_VALUE), answered);
    if (answer[RATION_ANSWER_NUMBER] == RATION_DONE && kind < KINDS) {
        accepted[kind] = true;
    }
    if (answer[RATION_ANSWER_NUMBER] < NUMBERS) {
        given[answer[RATION_ANSWER_NUMBER]] = true;
    }
}

#define DOES(kind, a, b) gives(#kind " " #a " " #b, RATION_KIND_##kind, a, b, 0, 0, RATION_DONE, 0)
#define ASKS(call, a, b) gives("HCALL " #call " " #a " " #b, RATION_KIND_HCALL, a, b, RATION_CALL_##call, 0, RATION_DONE, 0)
#define READS(kind, va, answered) gives(#kind " " #va, RATION_KIND_##kind, va, 0, 0, 0, RATION_DONE, answered)
#define WRITES(kind, va, value) gives(#kind " " #va " " #value, RATION_KIND_##kind, va, 0, 0, value, RATION_DONE, 0)
#define REFUSES(number, kind, a, b) gives(#number " of " #kind " " #a " " #b, RATION_KIND_##kind, a, b, 0, 0, RATION_REFUSED_##number, 0)
/* a guest asks, and the host does it and lets the guest run on */
#define SERVES(call, a, b) (ASKS(call, a, b), DOES(call, a, b), DOES(CHMOD, 0, 0))
/* guest 0 asks for del where nothing is mapped: refused, and the guest waits until the call is dropped */
#define MISSES(va) (ASKS(DEL, va, 0), REFUSES(UNMAPPED, DEL, va, 0), REFUSES(CALL, CHMOD, 0, 0), DOES(DROP, 0, 0), DOES(CHMOD, 0, 0))

static void sizes(void) {
    same("RATION_SIZE", "ration_size()", (uint32_t)ration_size(), RATION_SIZE);
    same("RATION_ANSWER", "ration_answer_size()", (uint32_t)ration_answer_size(), RATION_ANSWER);
    same("RATION_REPORT", "ration_report_size()", (uint32_t)ration_report_size(), RATION_REPORT);
    same("RATION_IMAGE", "ration_image_size()", (uint32_t)ration_image_size(), RATION_IMAGE);
    same("RATION_KEPT", "ration_kept_size()", (uint32_t)ration_kept_size(), RATION_KEPT);
}

static void ranges(void) {
    ration_fresh(state);
    same("RATION_PAGES", "a fresh machine's free pages", ration_free_pages(state), RATION_PAGES - RATION_GUESTS - HOST_PAGES);
    DOES(RET_CTRL, 0, 0);
    DOES(SWITCH, RATION_GUESTS - 1, 0);
    REFUSES(RECORD, SWITCH, RATION_GUESTS, 0);
    REFUSES(CALL, UNPIN, RATION_PHYSICALS - 1, 0);
    REFUSES(RECORD, UNPIN, RATION_PHYSICALS, 0);
    REFUSES(RESERVED, READ_HYPER, RATION_VIRTUALS - 1, 0);
    REFUSES(RECORD, READ_HYPER, RATION_VIRTUALS, 0);
    REFUSES(CALL, DROP, RATION_GUESTS - 1, 0);
    REFUSES(RECORD, DROP, RATION_GUESTS, 0);
}

static void reserved_addresses(void) {
    ration_fresh(state);
    for (int va = 0; va < RATION_VIRTUALS; va++) {
        char what[32];
        snprintf(what, sizeof what, "RATION_RESERVED(%d)", va);
        int number = RATION_RESERVED(va) ? RATION_REFUSED_RESERVED : RATION_REFUSED_UNMAPPED;
        gives(what, RATION_KIND_READ, va, 0, 0, 0, number, 0);
        gives(what, RATION_KIND_HCALL, va, 0, RATION_CALL_DEL, 0, RATION_DONE, 0);
        gives(what, RATION_KIND_DEL, va, 0, 0, 0, number, 0);
        DOES(DROP, 0, 0);
        DOES(CHMOD, 0, 0);
    }
    same("RATION_STEALTH", "reserved", RATION_RESERVED(RATION_STEALTH), false);
    same("RATION_FIRST_HOST_VA", "reserved", RATION_RESERVED(RATION_FIRST_HOST_VA), true);
    same("RATION_FIRST_HOST_VA", "reserved as 15 is", RATION_FIRST_HOST_VA % 8 == RATION_STEALTH, false);
}

/* Starting with this policy answers this number: the state is the fresh machine but for its policy, or as it was. */
static void starts(const char *what, uint8_t policy, int number) {
    static uint8_t expected[RATION_SIZE];
    memset(state, 170, sizeof state);
    memcpy(expected, state, sizeof state);
    if (number == RATION_DONE) {
        ration_fresh(expected);
        expected[POLICY] = policy;
    }
    same(what, "the number", ration_fresh_with(state, policy), (uint32_t)number);
    same(what, "the state", memcmp(state, expected, sizeof state) == 0, true);
}

/* Each byte as a policy to start with, and in a state. */
static void policies(void) {
    char what[32];
    ration_fresh(state);
    same("ration_fresh", "ration_policy()", ration_policy(state), RATION_WRITE_BACK);
    for (int policy = 0; policy < 256; policy++) {
        bool is_one = policy == RATION_WRITE_BACK || policy == RATION_WRITE_THROUGH;
        snprintf(what, sizeof what, "policy %d", policy);
        starts(what, (uint8_t)policy, is_one ? RATION_DONE : RATION_REFUSED_STATE);
        ration_fresh(state);
        state[POLICY] = (uint8_t)policy;
        same(what, "ration_policy()", ration_policy(state), (uint32_t)policy);
        same(what, "valid", ration_valid(state), is_one);
    }
}

/* Every kind and every call, on one machine from the fresh one on, with the same answers under each policy. Physical 3 has no page, so that a
 * for b is seen. */
static void kinds(uint8_t policy) {
    ration_fresh_with(state, policy);
    DOES(SILENT, 0, 0);
    SERVES(PIN, 2, RATION_PIN_DATA);
    SERVES(NEW, 3, 2);
    WRITES(WRITE, 3, 0x04030201);
    READS(READ, 3, 0x04030201);
    DOES(RET_CTRL, 0, 0);
    WRITES(WRITE_HYPER, 3, 77);
    READS(READ_HYPER, 3, 77);
    DOES(SWITCH, 1, 0);
    REFUSES(UNMAPPED, READ_HYPER, 3, 0);
    DOES(SWITCH, 0, 0);
    DOES(CHMOD, 0, 0);
    SERVES(DEL, 3, 0);
    REFUSES(UNMAPPED, READ, 3, 0);
    MISSES(3);
    SERVES(UNPIN, 2, 0);
    SERVES(PIN, 1, RATION_PIN_DATA);
    ASKS(NEW, RATION_STEALTH, 1);
    REFUSES(RESERVED, NEW, RATION_STEALTH, 1);
    DOES(NEW_SM, RATION_STEALTH, 1);
    DOES(CHMOD, 0, 0);
    WRITES(WRITE, RATION_STEALTH, 9);
    SERVES(PIN, 4, RATION_PIN_TABLE);
    SERVES(LSWITCH, 4, 0);
    REFUSES(UNMAPPED, READ, RATION_STEALTH, 0);
    MISSES(RATION_STEALTH);
    SERVES(LSWITCH, 0, 0);
    READS(READ, RATION_STEALTH, 9);
    ASKS(NONE, 0, 0);
    DOES(CHMOD, 0, 0);
    ASKS(UNPIN, 0, 0);
    DOES(DROP, 0, 0);
    DOES(CHMOD, 0, 0);
    same("after every kind", "valid", ration_valid(state), true);
    same("after every kind", "the policy", ration_policy(state), policy);
}

/* Two guests call, and both calls are declined. Only the named guest's call changes: in the end all is as if they had not called. */
static void declined(void) {
    static uint8_t uncalled[RATION_SIZE];
    ration_fresh(state);
    DOES(RET_CTRL, 0, 0);
    DOES(SWITCH, 1, 0);
    memcpy(uncalled, state, sizeof uncalled);
    ration_fresh(state);
    REFUSES(MODE, DROP, 0, 0);
    ASKS(NEW, 5, 9);
    DOES(SWITCH, 1, 0);
    DOES(CHMOD, 0, 0);
    REFUSES(MODE, DROP, 0, 0);
    ASKS(PIN, 0, RATION_PIN_TABLE);
    REFUSES(PLACE_TAKEN, PIN, 0, RATION_PIN_TABLE);
    REFUSES(RECORD, DROP, 0, 1);
    REFUSES(CALL, DROP, 2, 0);
    DOES(DROP, 0, 0);
    REFUSES(CALL, DROP, 0, 0);
    REFUSES(CALL, CHMOD, 0, 0);
    DOES(DROP, 1, 0);
    REFUSES(MODE, READ, 0, 0);
    same("after two drops", "as if they had not called", memcmp(state, uncalled, sizeof uncalled) == 0, true);
    DOES(SWITCH, 0, 0);
    DOES(CHMOD, 0, 0);
}

/* A record's refusals, in their order, each on a machine of its own. */
static void refusals(void) {
    ration_fresh(state);
    state[0] = 255;
    REFUSES(STATE, SILENT, 0, 0);
    ration_fresh(state);
    REFUSES(RECORD, SILENT, 1, 0);
    REFUSES(MODE, CHMOD, 0, 0);
    REFUSES(RESERVED, READ, 47, 0);
    REFUSES(UNMAPPED, READ, 46, 0);
    DOES(RET_CTRL, 0, 0);
    REFUSES(CALL, PIN, 1, RATION_PIN_DATA);
    ration_fresh(state);
    ASKS(UNPIN, 1, 0);
    REFUSES(UNREGISTERED, UNPIN, 1, 0);
    ration_fresh(state);
    ASKS(NEW, 0, 0);
    REFUSES(PAGE_KIND, NEW, 0, 0);
    ration_fresh(state);
    ASKS(PIN, 0, RATION_PIN_DATA);
    REFUSES(PLACE_TAKEN, PIN, 0, RATION_PIN_DATA);
    ration_fresh(state);
    ASKS(UNPIN, 0, 0);
    REFUSES(IN_USE, UNPIN, 0, 0);
    ration_fresh(state);
    SERVES(PIN, 1, RATION_PIN_DATA);
    ASKS(NEW, RATION_STEALTH, 1);
    DOES(NEW_SM, RATION_STEALTH, 1);
    DOES(CHMOD, 0, 0);
    ASKS(NEW, 0, 1);
    REFUSES(STEALTH_SHARED, NEW, 0, 1);
}

/* Guest after guest pins at each physical address but its first table's, until no page is free. */
static void no_free_page(void) {
    ration_fresh(state);
    for (int guest = 0; guest < RATION_GUESTS; guest++) {
        DOES(RET_CTRL, 0, 0);
        DOES(SWITCH, guest, 0);
        DOES(CHMOD, 0, 0);
        for (int pa = 1; pa < RATION_PHYSICALS && ration_free_pages(state) != 0; pa++) {
            SERVES(PIN, pa, RATION_PIN_DATA);
        }
    }
    ASKS(PIN, RATION_PHYSICALS - 1, RATION_PIN_DATA);
    REFUSES(NO_FREE_PAGE, PIN, RATION_PHYSICALS - 1, RATION_PIN_DATA);
}

/* A journal of this many records, silent but for those that the caller put there, and of these bytes left over. */
static void runs(const char *what, size_t records, size_t left_over, size_t room, int number) {
    memset(report, 255, sizeof report);
    ration_run(state, journal, RATION_HEADER + RATION_RECORD * records + left_over, answers, room, report);
    same(what, "the report's number", word(report + RATION_REPORT_NUMBER), (uint32_t)number);
    if (word(report + RATION_REPORT_NUMBER) < NUMBERS) {
        given[word(report + RATION_REPORT_NUMBER)] = true;
    }
}

static void reports(void) {
    ration_fresh(state);
    memset(journal, 0, sizeof journal);
    memcpy(journal, RATION_HEADER_BYTES, RATION_HEADER);
    put_record(journal + RATION_HEADER, RATION_KIND_CHMOD, 0, 0, 0, 0);
    put_record(journal + RATION_HEADER + 5 * RATION_RECORD, KINDS, 0, 0, 0, 0);
    runs("a journal of 6 records", 6, 3, sizeof answers, RATION_DONE);
    same("RATION_REPORT_TAKEN", "the count", word(report + RATION_REPORT_TAKEN), 6);
    same("RATION_REPORT_ACCEPTED", "the count", word(report + RATION_REPORT_ACCEPTED), 4);
    same("RATION_REPORT_REFUSED", "the count", word(report + RATION_REPORT_REFUSED), 2);
    same("RATION_REPORT_LEFT_OVER", "the count", word(report + RATION_REPORT_LEFT_OVER), 3);
    same("answer 0", "its number", answers[RATION_ANSWER_NUMBER], RATION_REFUSED_MODE);
    same("answer 1", "its number", answers[RATION_ANSWER + RATION_ANSWER_NUMBER], RATION_DONE);
    same("answer 5", "its number", answers[5 * RATION_ANSWER + RATION_ANSWER_NUMBER], RATION_REFUSED_RECORD);
    runs("RATION_RECORD_LIMIT", RATION_RECORD_LIMIT, RATION_RECORD - 1, RATION_ANSWER * RATION_RECORD_LIMIT, RATION_DONE);
    same("RATION_RECORD_LIMIT", "taken", word(report + RATION_REPORT_TAKEN), RATION_RECORD_LIMIT);
    runs("TOO_MANY_RECORDS", RATION_RECORD_LIMIT + 1, 0, sizeof answers, RATION_REFUSED_TOO_MANY_RECORDS);
    same("TOO_MANY_RECORDS", "taken", word(report + RATION_REPORT_TAKEN), 0);
    runs("ANSWER_BUFFER", 6, 0, 6 * RATION_ANSWER - 1, RATION_REFUSED_ANSWER_BUFFER);
    runs("a buffer that is enough", 6, 0, 6 * RATION_ANSWER, RATION_DONE);
    for (size_t i = 0; i < RATION_HEADER; i++) {
        journal[i] ^= 1;
        runs("HEADER", 0, 0, 0, RATION_REFUSED_HEADER);
        journal[i] ^= 1;
    }
    state[0] = 255;
    runs("STATE of a journal", 6, 0, sizeof answers, RATION_REFUSED_STATE);
}

/* Saving to, or loading from, this many bytes of image: the number, and that a refusal leaves state and image, and a save the state. */
static void answers_image(const char *what, bool saves, size_t length, int number) {
    static uint8_t state_before[RATION_SIZE], image_before[sizeof image];
    memcpy(state_before, state, sizeof state);
    memcpy(image_before, image, sizeof image);
    uint8_t answer = saves ? ration_save(state, image, length) : ration_load(state, image, length);
    same(what, "the number", answer, (uint32_t)number);
    if (answer < NUMBERS) {
        given[answer] = true;
    }
    if (saves || number != RATION_DONE) {
        same(what, "the state stays", memcmp(state, state_before, sizeof state) == 0, true);
    }
    if (!saves || number != RATION_DONE) {
        same(what, "the image stays", memcmp(image, image_before, sizeof image) == 0, true);
    }
}

#define SAVES(number, length) answers_image("save " #length ": " #number, true, length, RATION_##number)
#define LOADS(number, length) answers_image("load " #length ": " #number, false, length, RATION_##number)

/* The nine records of examples/nine.rpj: under write-through memory has 300 at once. */
static void nine(uint8_t policy) {
    ration_fresh_with(state, policy);
    SERVES(PIN, 1, RATION_PIN_DATA);
    SERVES(NEW, 0, 1);
    WRITES(WRITE, 0, 300);
    READS(READ, 0, 300);
    REFUSES(UNMAPPED, READ, 1, 0);
    same("the nine records", "300 in memory", word(state + MEMORY_OF_8) == 300, policy == RATION_WRITE_THROUGH);
}

/* The host of the nine records, saved, and loaded over a damaged state. */
static void images(uint8_t policy) {
    static uint8_t kept[RATION_SIZE];
    nine(policy);
    memcpy(kept, state, sizeof kept);
    memset(image, 255, sizeof image);
    SAVES(REFUSED_IMAGE, RATION_IMAGE - 1);
    SAVES(REFUSED_IMAGE, RATION_IMAGE + 1);
    SAVES(REFUSED_IMAGE, 0);
    SAVES(DONE, RATION_IMAGE);
    same("RATION_IMAGE", "the byte behind it", image[RATION_IMAGE], 255);
    same("RATION_IMAGE_FIRST_BYTES", "the first bytes", memcmp(image, RATION_IMAGE_FIRST_BYTES, RATION_IMAGE_STATE_AT) == 0, true);
    same("RATION_IMAGE_MARK_AT", "the mark", memcmp(image + RATION_IMAGE_MARK_AT, "RPS", RATION_IMAGE_VERSION_AT - RATION_IMAGE_MARK_AT) == 0, true);
    same("RATION_IMAGE_VERSION_AT", "the version", image[RATION_IMAGE_VERSION_AT] | image[RATION_IMAGE_VERSION_AT + 1] << 8, 2);
    same("RATION_IMAGE_STATE_AT", "the state", memcmp(image + RATION_IMAGE_STATE_AT, state, sizeof state) == 0, true);
    same("RATION_IMAGE_STATE_AT", "its bytes", RATION_IMAGE - RATION_IMAGE_STATE_AT, RATION_SIZE);
    memset(state, 255, sizeof state);
    LOADS(REFUSED_IMAGE, RATION_IMAGE - 1);
    LOADS(REFUSED_IMAGE, RATION_IMAGE + 1);
    LOADS(REFUSED_IMAGE, 0);
    LOADS(DONE, RATION_IMAGE);
    same("what was loaded", "is what was saved", memcmp(state, kept, sizeof kept) == 0, true);
    READS(READ, 0, 300);
}

/* An image of version 1, made of a saved one: it ends before the policy, and its host is write-back. Saved again, it is of version 2. Each of
 * the two versions has one length, and there is no other. */
static void version_1(uint8_t policy) {
    static uint8_t kept[RATION_SIZE], saved[sizeof image];
    char what[32];
    nine(policy);
    SAVES(DONE, RATION_IMAGE);
    LOADS(REFUSED_IMAGE, RATION_IMAGE_OF_VERSION_1);
    memcpy(saved, image, sizeof saved);
    memcpy(kept, state, sizeof kept);
    saved[RATION_IMAGE_STATE_AT + POLICY] = kept[POLICY] = RATION_WRITE_BACK;
    memset(state, 255, sizeof state);
    image[RATION_IMAGE_VERSION_AT] = 1;
    LOADS(REFUSED_IMAGE, RATION_IMAGE);
    LOADS(DONE, RATION_IMAGE_OF_VERSION_1);
    same("what version 1 holds", "the state", memcmp(state, kept, sizeof kept) == 0, true);
    SAVES(DONE, RATION_IMAGE);
    same("what version 1 holds", "its image", memcmp(image, saved, sizeof saved) == 0, true);
    for (int version = 0; version < 256; version++) {
        snprintf(what, sizeof what, "version %d", version);
        image[RATION_IMAGE_VERSION_AT] = (uint8_t)version;
        answers_image(what, false, RATION_IMAGE, version == 2 ? RATION_DONE : RATION_REFUSED_IMAGE);
        answers_image(what, false, RATION_IMAGE_OF_VERSION_1, version == 1 ? RATION_DONE : RATION_REFUSED_IMAGE);
    }
}

/* Each byte as the policy of a saved image: where memory has not what a line has, write-through is refused. */
static void other_policies(uint8_t policy) {
    char what[48];
    nine(policy);
    SAVES(DONE, RATION_IMAGE);
    for (int other = 0; other < 256; other++) {
        bool valid = other == RATION_WRITE_BACK || other == policy;
        snprintf(what, sizeof what, "policy %d in an image of policy %d", other, policy);
        image[RATION_IMAGE_STATE_AT + POLICY] = (uint8_t)other;
        answers_image(what, false, RATION_IMAGE, valid ? RATION_DONE : RATION_REFUSED_STATE);
        if (valid) {
            same(what, "ration_policy()", ration_policy(state), (uint32_t)other);
        }
    }
}

/* What is wrong in an image, and in a state that is saved; each check before the next. */
static void refused_images(void) {
    ration_fresh(state);
    SAVES(DONE, RATION_IMAGE);
    image[RATION_IMAGE_STATE_AT] ^= 255;
    LOADS(REFUSED_STATE, RATION_IMAGE);
    for (size_t i = 0; i < RATION_IMAGE_STATE_AT; i++) {
        image[i] ^= 32; /* a small letter, or another version */
        LOADS(REFUSED_IMAGE, RATION_IMAGE);
        image[RATION_IMAGE_STATE_AT] ^= 255;
        LOADS(REFUSED_IMAGE, RATION_IMAGE);
        image[RATION_IMAGE_STATE_AT] ^= 255;
        image[i] ^= 32;
    }
    state[0] ^= 255;
    SAVES(REFUSED_STATE, RATION_IMAGE);
    SAVES(REFUSED_STATE, 0);
}

static void all_met(void) {
    char what[32];
    for (int kind = 0; kind < KINDS; kind++) {
        snprintf(what, sizeof what, "kind %d", kind);
        same(what, "accepted", accepted[kind], true);
    }
    for (int number = 0; number < NUMBERS; number++) {
        snprintf(what, sizeof what, "number %d", number);
        same(what, "given", given[number], true);
    }
}

int main(void) {
    sizes();
    /* bytes of other sizes are not lent */
    if (differences == 0) {
        ranges();
        reserved_addresses();
        policies();
        for (uint8_t policy = 0; policy < POLICIES; policy++) {
            kinds(policy);
            images(policy);
            version_1(policy);
            other_policies(policy);
        }
        declined();
        refusals();
        no_free_page();
        reports();
        refused_images();
        all_met();
    }
    printf("%u compared, %u differ\n", compared, differences);
    return differences == 0 ? 0 : 1;
}
