/* Holds the constants of a check in include/ration.h, ration_open and ration_broken to the machine: every place of every part of every rule is
 * damaged on a fresh machine, and is named. A line for each difference, and status 1. It is C and C++. */
#include <stdio.h>
#include <string.h>

#include "ration.h"

enum { LINES = RATION_SETS * RATION_WAYS, STEALTH_LINE = 7 * RATION_WAYS, VALUE = 4, FIELDS = RATION_FIELD_POLICY + 1 };
/* where a field starts: docs/STATE.md */
enum {
    OWNER = 0,
    KIND = 64,
    CACHEABLE = 128,
    ENTRY = 192,
    PHYSICAL = 4288,
    CURRENT = 4360,
    CALL = 4364,
    CALL_A = 4368,
    CALL_B = 4372,
    LINE_PAGE = 4394,
    HISTORY = 4410,
    SLOT_ADDRESS = 4418,
    SLOT_PAGE = 4426,
    LINE = 4690,
    POLICY = 4754
};
enum { TABLE = 2, GUEST_0 = 2, DEL = 2, HOST_PAGE = 4 + 1, FREE_PAGE = 8 + 1 }; /* pages plus one */

static uint8_t state[RATION_SIZE], fresh[RATION_SIZE], before[RATION_SIZE];
static uint8_t image[RATION_IMAGE + 1];
static unsigned compared, differences;

static void same(const char *what, unsigned where, const char *part, unsigned found, unsigned expected) {
    compared++;
    if (found != expected) {
        differences++;
        printf("%s %u: %s is %u, not %u\n", what, where, part, found, expected);
    }
}

/* What is said of one rule: the number, the part and the place, and the state stays. */
static void finds(const char *what, unsigned where, unsigned rule, unsigned number, unsigned part, unsigned place) {
    uint8_t found_part = 170;
    uint16_t found_place = 43690;
    memcpy(before, state, sizeof state);
    same(what, where, "the number", ration_broken(state, (uint8_t)rule, &found_part, &found_place), number);
    same(what, where, "the part", found_part, part);
    same(what, where, "the place", found_place, place);
    same(what, where, "the state stays", memcmp(state, before, sizeof state) == 0, true);
}

/* Whether all rules hold is whether the state is valid, and a rule that holds names no place. */
static void agrees(const char *what, unsigned where) {
    bool all_hold = true;
    for (unsigned rule = 1; rule <= RATION_RULES; rule++) {
        uint8_t part = 170;
        uint16_t place = 43690;
        unsigned number = ration_broken(state, (uint8_t)rule, &part, &place);
        same(what, where, "a known rule", number == RATION_RULE_HOLDS || number == RATION_RULE_BROKEN, true);
        all_hold = all_hold && number == RATION_RULE_HOLDS;
        if (number == RATION_RULE_HOLDS) {
            same(what, where, "the part of no place", part, 0);
            same(what, where, "no place", place, 0);
        }
    }
    same(what, where, "all hold", all_hold, ration_valid(state));
}

/* ---- damage: a few numbers that break a rule at one place */

static void a_call_with_an_unused_argument(unsigned guest) {
    state[CALL + guest] = DEL;
    state[CALL_B + guest] = 1;
}

static void a_page_not_cacheable(unsigned page) {
    state[CACHEABLE + page] = 0;
}

static void an_address_of_a_host_page(unsigned place) {
    state[PHYSICAL + place] = HOST_PAGE;
}

/* a guest's table loses its address; another page gets an owner, and no address */
static void a_page_not_reached(unsigned page) {
    if (page < RATION_GUESTS) {
        state[PHYSICAL + RATION_PHYSICALS * page] = 0;
    } else {
        state[OWNER + page] = GUEST_0;
    }
}

static void an_entry_of_a_host_page(unsigned place) {
    state[ENTRY + place] = HOST_PAGE;
}

static void a_table_nowhere(unsigned guest) {
    state[CURRENT + guest] = 1;
}

/* the page is a table that maps 7 to itself */
static void a_stealth_page_not_cacheable(unsigned page) {
    state[KIND + page] = TABLE;
    state[ENTRY + RATION_VIRTUALS * page + RATION_STEALTH] = (uint8_t)(page + 1);
    state[CACHEABLE + page] = 0;
}

static void a_line_of_a_host_page(unsigned line) {
    state[LINE_PAGE + line] = HOST_PAGE;
}

static void a_slot_of_a_host_page(unsigned slot) {
    state[SLOT_PAGE + slot] = HOST_PAGE;
}

static void a_line_in_set_7(unsigned way) {
    state[LINE_PAGE + STEALTH_LINE + way] = HOST_PAGE;
}

static void a_history_of_set_7(unsigned place) {
    state[HISTORY + 7 + place] = 1;
}

static void an_argument_of_no_call(unsigned guest) {
    state[CALL_A + guest] = 1;
}

static void a_value_of_an_empty_way(unsigned line) {
    state[LINE + VALUE * line] = 1;
}

static void an_address_of_an_empty_slot(unsigned slot) {
    state[SLOT_ADDRESS + slot] = 1;
}

static void a_value_that_memory_has_not(unsigned line) {
    state[POLICY] = RATION_WRITE_THROUGH;
    state[LINE_PAGE + line] = FREE_PAGE;
    state[LINE + VALUE * line + VALUE - 1] = 1;
}

static const struct damage {
    const char *what;
    void (*damage)(unsigned place);
    unsigned rule, part, places;
} damages[] = {
    {"a call with an unused argument", a_call_with_an_unused_argument, 1, 0, RATION_GUESTS},
    {"a page not cacheable", a_page_not_cacheable, 2, 0, RATION_PAGES},
    {"an address of a host page", an_address_of_a_host_page, 3, RATION_PART_3_ADDRESSES, RATION_GUESTS * RATION_PHYSICALS},
    {"a page not reached", a_page_not_reached, 3, RATION_PART_3_PAGES, RATION_PAGES},
    {"an entry of a host page", an_entry_of_a_host_page, 4, 0, RATION_PAGES * RATION_VIRTUALS},
    {"a table nowhere", a_table_nowhere, 5, 0, RATION_GUESTS},
    {"a stealth page not cacheable", a_stealth_page_not_cacheable, 6, 0, RATION_PAGES},
    {"a line of a host page", a_line_of_a_host_page, 7, 0, LINES},
    {"a slot of a host page", a_slot_of_a_host_page, 8, 0, RATION_SLOTS},
    {"a line in set 7", a_line_in_set_7, 9, RATION_PART_9_WAYS, RATION_WAYS},
    {"a history of set 7", a_history_of_set_7, 9, RATION_PART_9_HISTORY, 1},
    {"an argument of no call", an_argument_of_no_call, 10, RATION_PART_10_GUESTS, RATION_GUESTS},
    {"a value of an empty way", a_value_of_an_empty_way, 10, RATION_PART_10_LINES, LINES},
    {"an address of an empty slot", an_address_of_an_empty_slot, 10, RATION_PART_10_SLOTS, RATION_SLOTS},
    {"a value that memory has not", a_value_that_memory_has_not, 11, 0, LINES},
};

/* Each place alone, and then with the last one: the first is named. */
static void places_of(const struct damage *d) {
    for (unsigned place = 0; place < d->places; place++) {
        memcpy(state, fresh, sizeof state);
        d->damage(place);
        finds(d->what, place, d->rule, RATION_RULE_BROKEN, d->part, place);
        agrees(d->what, place);
        d->damage(d->places - 1);
        finds(d->what, place, d->rule, RATION_RULE_BROKEN, d->part, place);
    }
}

/* Rule 10 of each number that a byte is: where it is as large as it can be, and everywhere else in no range. */
static void numbers(void) {
    static const unsigned counts[FIELDS] = {64, 64, 64, 4096, 64, 8, 4, 4, 4, 4, 1, 1, 16, 16, 8, 8, 8, 256, 64, 1};
    unsigned at = 0;
    for (unsigned field = 0; field < FIELDS; field++) {
        bool wide = field == RATION_FIELD_FREE || field == RATION_FIELD_MEMORY || field == RATION_FIELD_LINE;
        for (unsigned place = 0; place < counts[field]; place++, at++) {
            memcpy(state, fresh, sizeof state);
            state[at] = 255;
            if (!wide) {
                finds("a number", at, 10, RATION_RULE_BROKEN, field, place);
            } else if (field == RATION_FIELD_LINE) {
                finds("a value", at, 10, RATION_RULE_BROKEN, RATION_PART_10_LINES, place / VALUE);
            } else {
                finds("a value", at, 10, RATION_RULE_HOLDS, 0, 0);
            }
        }
    }
    same("the fields", 0, "their bytes", at, RATION_SIZE);
}

/* Of two parts the first one that is broken is named, whatever the places are. */
static void first_parts(void) {
    memcpy(state, fresh, sizeof state);
    a_page_not_reached(9);
    an_address_of_a_host_page(63);
    finds("two parts of rule", 3, 3, RATION_RULE_BROKEN, RATION_PART_3_ADDRESSES, 63);
    a_history_of_set_7(0);
    a_line_in_set_7(1);
    finds("two parts of rule", 9, 9, RATION_RULE_BROKEN, RATION_PART_9_WAYS, 1);
    an_address_of_an_empty_slot(0);
    finds("parts of rule", 10, 10, RATION_RULE_BROKEN, RATION_PART_10_SLOTS, 0);
    a_value_of_an_empty_way(2);
    finds("parts of rule", 10, 10, RATION_RULE_BROKEN, RATION_PART_10_LINES, 2);
    an_argument_of_no_call(3);
    finds("parts of rule", 10, 10, RATION_RULE_BROKEN, RATION_PART_10_GUESTS, 3);
    state[POLICY] = 2;
    finds("parts of rule", 10, 10, RATION_RULE_BROKEN, RATION_FIELD_POLICY, 0);
}

/* Each rule of the fresh machine holds; every other number is no rule, whatever the state is. */
static void rules(void) {
    for (unsigned rule = 0; rule < 256; rule++) {
        bool known = rule >= 1 && rule <= RATION_RULES;
        memcpy(state, fresh, sizeof state);
        finds("rule", rule, rule, known ? RATION_RULE_HOLDS : RATION_RULE_UNKNOWN, 0, 0);
        memset(state, 255, sizeof state);
        if (!known) {
            finds("rule of a damaged host", rule, rule, RATION_RULE_UNKNOWN, 0, 0);
        }
        agrees("a damaged host and rule", rule);
    }
}

/* ---- images */

/* Opening this many bytes of image over a state of these bytes: the number, and the state is the expected one, or as it was. */
static void opens(const char *what, unsigned where, size_t length, unsigned number, const uint8_t *expected) {
    static uint8_t kept[sizeof image];
    memset(state, 170, sizeof state);
    memcpy(before, state, sizeof state);
    memcpy(kept, image, sizeof image);
    same(what, where, "the number", ration_open(state, image, length), number);
    same(what, where, "the state", memcmp(state, number == RATION_DONE ? expected : before, sizeof state) == 0, true);
    same(what, where, "the image stays", memcmp(image, kept, sizeof image) == 0, true);
}

/* The image of the state, of either version, whether it is valid or not: version 1 ends before the policy. */
static void put_image(uint8_t version) {
    memcpy(image, RATION_IMAGE_FIRST_BYTES, RATION_IMAGE_STATE_AT);
    image[RATION_IMAGE_VERSION_AT] = version;
    memcpy(image + RATION_IMAGE_STATE_AT, state, sizeof state);
}

/* The state, as an image of each version, is opened; loaded it is where it is valid alone. */
static void both_versions(const char *what, unsigned where) {
    static uint8_t expected[RATION_SIZE];
    memcpy(expected, state, sizeof state);
    put_image(2);
    opens(what, where, RATION_IMAGE, RATION_DONE, expected);
    unsigned loaded = ration_valid(expected) ? RATION_DONE : RATION_REFUSED_STATE;
    same(what, where, "loading it", ration_load(state, image, RATION_IMAGE), loaded);
    image[RATION_IMAGE_VERSION_AT] = 1;
    expected[POLICY] = RATION_WRITE_BACK;
    opens(what, where, RATION_IMAGE_OF_VERSION_1, RATION_DONE, expected);
    finds(what, where, 11, RATION_RULE_HOLDS, 0, 0);
}

static void images(void) {
    memcpy(state, fresh, sizeof state);
    both_versions("the fresh machine", 0);
    for (unsigned byte = 0; byte < 256; byte += 51) {
        memset(state, (int)byte, sizeof state);
        both_versions("a host of bytes", byte);
    }
    for (size_t d = 0; d < sizeof damages / sizeof damages[0]; d++) {
        memcpy(state, fresh, sizeof state);
        damages[d].damage(damages[d].places - 1);
        both_versions(damages[d].what, damages[d].places - 1);
    }
}

/* What is no image, of a valid host and of a damaged one: each length, and each version and mark. */
static void refused_images(void) {
    for (unsigned damaged = 0; damaged < 2; damaged++) {
        memcpy(state, fresh, sizeof state);
        state[OWNER] ^= (uint8_t)(255 * damaged);
        put_image(2);
        for (size_t length = 0; length <= sizeof image; length++) {
            if (length != RATION_IMAGE) {
                opens("length", (unsigned)length, length, RATION_REFUSED_IMAGE, NULL);
            }
        }
        for (unsigned version = 0; version < 65536; version += version < 257 ? 1 : 251) {
            image[RATION_IMAGE_VERSION_AT] = (uint8_t)version;
            image[RATION_IMAGE_VERSION_AT + 1] = (uint8_t)(version >> 8);
            const uint8_t *held = image + RATION_IMAGE_STATE_AT;
            opens("version", version, RATION_IMAGE, version == 2 ? RATION_DONE : RATION_REFUSED_IMAGE, held);
            if (version != 1) {
                opens("version", version, RATION_IMAGE_OF_VERSION_1, RATION_REFUSED_IMAGE, NULL);
            }
        }
        memcpy(image, RATION_IMAGE_FIRST_BYTES, RATION_IMAGE_STATE_AT);
        for (unsigned i = RATION_IMAGE_MARK_AT; i < RATION_IMAGE_VERSION_AT; i++) {
            image[i] ^= 32; /* a small letter */
            opens("letter", i, RATION_IMAGE, RATION_REFUSED_IMAGE, NULL);
            image[i] ^= 32;
        }
    }
}

int main(void) {
    /* bytes of other sizes are not lent */
    same("RATION_SIZE", 0, "ration_size()", (unsigned)ration_size(), RATION_SIZE);
    same("RATION_IMAGE", 0, "ration_image_size()", (unsigned)ration_image_size(), RATION_IMAGE);
    if (differences == 0) {
        ration_fresh(fresh);
        rules();
        for (size_t d = 0; d < sizeof damages / sizeof damages[0]; d++) {
            places_of(&damages[d]);
        }
        numbers();
        first_parts();
        images();
        refused_images();
    }
    printf("%u compared, %u differ\n", compared, differences);
    return differences == 0 ? 0 : 1;
}
