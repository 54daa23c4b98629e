/* Checks the host of an image, whatever is wrong with it: of each rule that it holds, or the first place where it is broken. It prints what
 * `./rpj --check IMAGE` prints, and ends with the same status: 1 if a rule is broken or IMAGE is no image, 2 if IMAGE cannot be read or the
 * lines cannot be written. */
#include <stdio.h>

#include "ration.h"

/* By their numbers, as docs/STATE.md names them. */
static const char *const fields[] = {
    "owner", "kind", "cacheable", "entry", "physical", "free", "current", "call", "callA", "callB", "active", "mode", "lineAddress",
    "linePage", "history", "slotAddress", "slotPage", "memory", "line", "policy",
};

static void print_number(uint8_t part, unsigned place) {
    if (part == RATION_PART_10_GUESTS) {
        printf("guest %u\n", place);
    } else if (part == RATION_PART_10_LINES) {
        printf("set %u way %u\n", place / RATION_WAYS, place % RATION_WAYS);
    } else if (part == RATION_PART_10_SLOTS) {
        printf("slot %u\n", place);
    } else {
        printf("%s %u\n", fields[part], place);
    }
}

/* The words of docs/RULES.md. */
static void print_place(uint8_t rule, uint8_t part, unsigned place) {
    if (rule == 1 || rule == 5) {
        printf("guest %u\n", place);
    } else if (rule == 3 && part == RATION_PART_3_ADDRESSES) {
        printf("guest %u physical %u\n", place / RATION_PHYSICALS, place % RATION_PHYSICALS);
    } else if (rule == 2 || rule == 3 || rule == 6) {
        printf("page %u\n", place);
    } else if (rule == 4) {
        printf("page %u address %u\n", place / RATION_VIRTUALS, place % RATION_VIRTUALS);
    } else if (rule == 7 || rule == 11) {
        printf("set %u way %u\n", place / RATION_WAYS, place % RATION_WAYS);
    } else if (rule == 8) {
        printf("slot %u\n", place);
    } else if (rule == 9 && part == RATION_PART_9_WAYS) {
        printf("set 7 way %u\n", place);
    } else if (rule == 9) {
        puts("set 7 history");
    } else {
        print_number(part, place);
    }
}

/* Whether all rules hold. */
static bool check(const uint8_t state[RATION_SIZE]) {
    bool all_hold = true;
    for (uint8_t rule = 1; rule <= RATION_RULES; rule++) {
        uint8_t part;
        uint16_t place;
        if (ration_broken(state, rule, &part, &place) == RATION_RULE_HOLDS) {
            printf("%u holds\n", rule);
        } else {
            all_hold = false;
            printf("%u broken ", rule);
            print_place(rule, part, place);
        }
    }
    return all_hold;
}

int main(int count, char **words) {
    static uint8_t state[RATION_SIZE], image[RATION_IMAGE + 1]; /* a byte more shows that a file is no image, however long it is */
    if (ration_size() != RATION_SIZE || ration_image_size() != RATION_IMAGE) {
        fputs("libration.a has other sizes than ration.h\n", stderr);
        return 2;
    }
    FILE *file = count == 2 ? fopen(words[1], "rb") : NULL;
    size_t length = file != NULL ? fread(image, 1, sizeof image, file) : 0;
    if (file == NULL || ferror(file)) {
        fputs("usage: check IMAGE, a file that can be read\n", stderr);
        return 2;
    }
    fclose(file);
    uint8_t number = ration_open(state, image, length);
    if (number != RATION_DONE) {
        printf("refused %u\n", number);
    }
    int status = number == RATION_DONE && check(state) ? 0 : 1;
    return fflush(stdout) == 0 && !ferror(stdout) ? status : 2;
}
