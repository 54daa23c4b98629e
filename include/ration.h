/* The ration host on lent bytes: its functions, and every number of a record, an answer, a report, a journal, what is kept of one
 * between its pieces, an image, and a check. docs/HOST.md has the rules behind them, docs/STATE.md the layout of a state,
 * docs/IMAGE.md that of an image, docs/RULES.md the places of a check, and crates/ration/src/lib.rt the promises that are proved.
 * `tools/archive DIR` writes DIR/libration.a, for `cc -Iinclude program.c DIR/libration.a`.
 *
 * The proofs assume of a caller what Rust's references do. For each pointer: it is not null, it stays good for the call, and it
 * leads to exactly as many bytes as its parameter says (a length may be 0, and its pointer is then still not null; a size_t and a
 * uint16_t are aligned). No byte that a function writes (a parameter without const) is part of another parameter, or used by
 * another thread during the call, and no byte that it reads changes meanwhile. Nothing is assumed of the bytes themselves: any 4,755
 * bytes are a state, any 9 what is kept, any bytes a record, a journal, a piece of one or an image, and each has its answer.
 * No function keeps a pointer, allocates or fails. */
#ifndef RATION_H
#define RATION_H

#include <stdbool.h>
#include <stddef.h>
#include <stdint.h>

#ifdef __cplusplus
extern "C" {
#endif

/* Sizes in bytes, and the places of the bytes. A number of 32 bits stands low byte first. */
enum {
    RATION_SIZE = 4755, /* a state; ration_size() answers it */

    RATION_RECORD = 8,       /* a record; bytes that its kind and call do not use are 0 */
    RATION_RECORD_KIND = 0,  /* RATION_KIND_.. */
    RATION_RECORD_A = 1,     /* the first argument */
    RATION_RECORD_B = 2,     /* the second argument */
    RATION_RECORD_CALL = 3,  /* RATION_CALL_.., of hcall alone */
    RATION_RECORD_VALUE = 4, /* of write and write_hyper alone, 32 bits */

    RATION_ANSWER = 8,        /* an answer; ration_answer_size() answers it */
    RATION_ANSWER_NUMBER = 0, /* RATION_DONE or RATION_REFUSED_..; three zeros follow */
    RATION_ANSWER_VALUE = 4,  /* of a read that was done what it read, else 0; 32 bits */

    RATION_REPORT = 20,           /* a report, five numbers of 32 bits; ration_report_size() answers it */
    RATION_REPORT_NUMBER = 0,     /* RATION_DONE, or why the journal was refused: then the other four are 0 */
    RATION_REPORT_TAKEN = 4,      /* records judged */
    RATION_REPORT_ACCEPTED = 8,   /* those that were done */
    RATION_REPORT_REFUSED = 12,   /* those that were refused */
    RATION_REPORT_LEFT_OVER = 16, /* bytes after the last whole record, 0 to 7, which are not run */

    RATION_HEADER = 8,          /* a journal's header, RATION_HEADER_BYTES; its records follow, with nothing between */
    RATION_RECORD_LIMIT = 4096, /* the most whole records of a journal */

    RATION_KEPT = 9,        /* what is kept from one piece of a journal to the next; ration_kept_size() answers it */
    RATION_KEPT_HEADER = 0, /* how many bytes of the header were taken, 0 to 8; 255 once a piece was refused with 13 */
    RATION_KEPT_BEGUN = 1,  /* how many bytes of a begun record are kept, 0 to 7: at the end of the input, those left over */
    RATION_KEPT_BYTES = 2,  /* these bytes, and zeros behind them */

    RATION_IMAGE = 4760,              /* an image as it is saved, of version 2; ration_image_size() answers it */
    RATION_IMAGE_OF_VERSION_1 = 4759, /* one of version 1, which has no policy: it is loaded still, as write-back */
    RATION_IMAGE_MARK_AT = 0,         /* the letters RPS */
    RATION_IMAGE_VERSION_AT = 3,      /* 16 bits, low byte first */
    RATION_IMAGE_STATE_AT = 5         /* the fields of the state, to the end; those of version 1 without the last, the policy */
};

/* A journal's first bytes: the mark, version 1 as 16 bits, three zeros. memcpy(journal, RATION_HEADER_BYTES, RATION_HEADER) */
#define RATION_HEADER_BYTES "RPJ\001\000\000\000\000"

/* A saved image's first bytes: the mark, version 2 as 16 bits. memcmp(image, RATION_IMAGE_FIRST_BYTES, RATION_IMAGE_STATE_AT) */
#define RATION_IMAGE_FIRST_BYTES "RPS\002\000"

/* How many there are of each; each counts from 0, rules alone from 1. A virtual address (va) is what guests read and write, a
 * physical one (pa) says which of a guest's own pages is meant. */
enum {
    RATION_GUESTS = 4,
    RATION_PHYSICALS = 16,    /* physical addresses of each guest; on a fresh machine the page at 0 is its table */
    RATION_VIRTUALS = 64,     /* virtual addresses */
    RATION_PAGES = 64,        /* machine pages; a fresh machine has 56 free ones */
    RATION_SETS = 8,          /* sets of the cache */
    RATION_WAYS = 2,          /* ways of each set; way w of set k is line 2 * k + w */
    RATION_SLOTS = 8,         /* slots of the TLB */
    RATION_RULES = 11,        /* rules that a valid state keeps */
    RATION_STEALTH = 7,       /* the virtual address of a table's stealth page; its lines are in set 7 */
    RATION_FIRST_HOST_VA = 48 /* virtual addresses from here on belong to the host */
};

/* Whether a virtual address is reserved, so that nothing is mapped there: 15, 23, 31, 39, 47, and 48 to 63. Uses va three times. */
#define RATION_RESERVED(va) ((va) >= RATION_FIRST_HOST_VA || ((va) % RATION_SETS == RATION_STEALTH && (va) != RATION_STEALTH))

/* What a record does (its kind), its arguments, and who must have control: 'running' is the active guest, 'waiting' the host. On a
 * fresh machine guest 0 is active and running. hcall and ret_ctrl give the host control, and it keeps it until chmod.
 * 'call new' and the like: the active guest's pending call is that one, with the same arguments; doing it clears the call. A refusal
 * leaves the call pending; until it is done or dropped, its guest does not run. While the host has control, any guest g runs within
 * three records, whatever its call: drop g if g has one (if it has none, drop is refused, and the others are as before), switch g,
 * chmod. */
enum ration_kind {
    RATION_KIND_SILENT = 0,      /* nothing; running or waiting */
    RATION_KIND_READ = 1,        /* answers the value at va a; running */
    RATION_KIND_READ_HYPER = 2,  /* answers the value at va a of the active guest; waiting */
    RATION_KIND_WRITE = 3,       /* writes value at va a; running */
    RATION_KIND_WRITE_HYPER = 4, /* writes value at va a of the active guest; waiting */
    RATION_KIND_NEW = 5,         /* maps va a to the page at pa b; waiting, call new */
    RATION_KIND_NEW_SM = 6,      /* maps the stealth address, a = 7, to the page at pa b; waiting, call new */
    RATION_KIND_DEL = 7,         /* unmaps va a, which the current table must map; waiting, call del */
    RATION_KIND_SWITCH = 8,      /* makes guest a the active one; waiting, and guest a has no pending call */
    RATION_KIND_LSWITCH = 9,     /* makes the table at pa a the current one; waiting, call lswitch */
    RATION_KIND_HCALL = 10,      /* stores call with its arguments a and b, and gives control to the host; running */
    RATION_KIND_RET_CTRL = 11,   /* gives control to the host; running */
    RATION_KIND_CHMOD = 12,      /* lets the active guest run; waiting, and it has no pending call */
    RATION_KIND_PIN = 13,        /* gives the guest a free page at pa a, of kind b (RATION_PIN_..); waiting, call pin */
    RATION_KIND_UNPIN = 14,      /* takes back the page at pa a; waiting, call unpin */
    RATION_KIND_DROP = 15        /* declines and clears the pending call of guest a, active or not; waiting, and guest a has one */
};

/* What hcall asks the host for, with the arguments of the record that does it. */
enum ration_call {
    RATION_CALL_NONE = 0,    /* nothing; a and b are 0 */
    RATION_CALL_NEW = 1,     /* a: va, b: pa; for new, and with va 7 for new_sm */
    RATION_CALL_DEL = 2,     /* a: va */
    RATION_CALL_LSWITCH = 3, /* a: pa */
    RATION_CALL_PIN = 4,     /* a: pa, b: RATION_PIN_.. */
    RATION_CALL_UNPIN = 5    /* a: pa */
};

/* The kind of page that a pin asks for. */
enum ration_pin {
    RATION_PIN_DATA = 0, /* a page to be mapped, read and written; it holds 0 */
    RATION_PIN_TABLE = 1 /* a table of the guest's addresses; it is empty */
};

/* The write policy of a host: when what is written to a page in the cache reaches memory. No record changes it, and the answers to
 * the same records are the same under both, from the fresh machine on. */
enum ration_write_policy {
    RATION_WRITE_BACK = 0,   /* when its line is taken out of the cache */
    RATION_WRITE_THROUGH = 1 /* at once */
};

/* The number of an answer or of a report, and what starting with a policy, feeding, saving, loading and opening answer. Checks run in
 * this order, and the first that applies is the answer; but loading checks 16 before 1. 1 to 12 are a record's, 1 and 13 to 15 a
 * journal's, 1, 13 and 15 a piece's, 1 and 16 an image's (16 alone where it is opened), 1 a policy's. A page is shared from when two
 * addresses lead to it at once until it is unpinned. */
enum ration_number {
    RATION_DONE = 0,                      /* the record, the run, the piece, the save, the load, the opening or the start was done */
    RATION_REFUSED_STATE = 1,             /* the state, or the one in the image, is not valid; starting: there is no such policy */
    RATION_REFUSED_RECORD = 2,            /* not 8 bytes, unknown kind or call, argument out of range, unused byte not 0 */
    RATION_REFUSED_MODE = 3,              /* a guest's action while the host has control, or the host's while a guest runs */
    RATION_REFUSED_CALL = 4,              /* the call is not exactly this one; chmod, switch: the guest has one; drop: it has none */
    RATION_REFUSED_RESERVED = 5,          /* reads, writes, new, del: the address is reserved; new: or it is 7 */
    RATION_REFUSED_UNMAPPED = 6,          /* reads, writes, del: the current table maps nothing there */
    RATION_REFUSED_UNREGISTERED = 7,      /* new, new_sm, lswitch, unpin: the guest has no page at this pa */
    RATION_REFUSED_PAGE_KIND = 8,         /* new, new_sm: the page is not data; lswitch: it is no table */
    RATION_REFUSED_STEALTH_SHARED = 9,    /* new: a table maps 7 to the page; new_sm: one maps another va to it, or it is shared */
    RATION_REFUSED_PLACE_TAKEN = 10,      /* new_sm: the current table maps 7 already; pin: the guest has a page at this pa */
    RATION_REFUSED_NO_FREE_PAGE = 11,     /* pin: no page is free */
    RATION_REFUSED_IN_USE = 12,           /* unpin: the current table, a table with entries, or a page that some table maps */
    RATION_REFUSED_HEADER = 13,           /* a journal's first 8 bytes are missing or different; of a piece, see ration_feed */
    RATION_REFUSED_TOO_MANY_RECORDS = 14, /* a journal has more than 4,096 whole records; never of a piece */
    RATION_REFUSED_ANSWER_BUFFER = 15,    /* the answer buffer has less than 8 bytes for each whole record, or each to be run */
    RATION_REFUSED_IMAGE = 16             /* mark, version or length is not an image's; saving: the buffer's length is not */
};

/* What ration_broken answers of a rule. */
enum ration_finding {
    RATION_RULE_HOLDS = 0,
    RATION_RULE_BROKEN = 1,
    RATION_RULE_UNKNOWN = 2 /* there is no such rule */
};

/* The fields of a state, in their order: docs/STATE.md. They are the first parts of rule 10. */
enum ration_field {
    RATION_FIELD_OWNER = 0,
    RATION_FIELD_KIND = 1,
    RATION_FIELD_CACHEABLE = 2,
    RATION_FIELD_ENTRY = 3,
    RATION_FIELD_PHYSICAL = 4,
    RATION_FIELD_FREE = 5,
    RATION_FIELD_CURRENT = 6,
    RATION_FIELD_CALL = 7,
    RATION_FIELD_CALL_A = 8,
    RATION_FIELD_CALL_B = 9,
    RATION_FIELD_ACTIVE = 10,
    RATION_FIELD_MODE = 11,
    RATION_FIELD_LINE_ADDRESS = 12,
    RATION_FIELD_LINE_PAGE = 13,
    RATION_FIELD_HISTORY = 14,
    RATION_FIELD_SLOT_ADDRESS = 15,
    RATION_FIELD_SLOT_PAGE = 16,
    RATION_FIELD_MEMORY = 17,
    RATION_FIELD_LINE = 18,
    RATION_FIELD_POLICY = 19
};

/* The parts of the rules that have several, RATION_PART_ with the rule's number; every other rule has part 0 alone. */
enum ration_part {
    RATION_PART_3_ADDRESSES = 0, /* physical addresses */
    RATION_PART_3_PAGES = 1,
    RATION_PART_9_WAYS = 0, /* of set 7 */
    RATION_PART_9_HISTORY = 1,
    RATION_PART_10_GUESTS = 20, /* the arguments of their calls; parts below this one are RATION_FIELD_.. */
    RATION_PART_10_LINES = 21,  /* empty ways */
    RATION_PART_10_SLOTS = 22   /* empty slots */
};

/* The bytes of a state, of an answer, of a report, of an image and of what is kept, as the archive has them. Where one is not the size
 * above, header and archive do not belong together, and nothing may be lent to the other functions. */
size_t ration_size(void);
size_t ration_answer_size(void);
size_t ration_report_size(void);
size_t ration_image_size(void);
size_t ration_kept_size(void);

/* Makes the state the fresh machine, whatever its bytes were. Its policy is write-back. */
void ration_fresh(uint8_t state[RATION_SIZE]);

/* Makes the state the fresh machine with this policy, RATION_WRITE_.., whatever its bytes were, and answers RATION_DONE.
 * RATION_REFUSED_STATE if policy is another number: state is then as it was. */
uint8_t ration_fresh_with(uint8_t state[RATION_SIZE], uint8_t policy);

/* The state's policy: RATION_WRITE_.. if the state is valid, and else perhaps another number. */
uint8_t ration_policy(const uint8_t state[RATION_SIZE]);

/* Whether the state is valid, by the eleven rules. */
bool ration_valid(const uint8_t state[RATION_SIZE]);

/* How many pages the state's map marks as free. */
uint32_t ration_free_pages(const uint8_t state[RATION_SIZE]);

/* Judges the record of length bytes, does or refuses it, and writes its answer. The number is 0 where it was done; a refusal leaves
 * the state as it was, with the value 0. */
void ration_step(uint8_t state[RATION_SIZE], const uint8_t *record, size_t length, uint8_t answer[RATION_ANSWER]);

/* Runs the journal of length bytes and writes record n's answer to bytes 8n to 8n + 7 of answers, which has room bytes; the rest of
 * answers stays. The report's number is 0 where the journal was run. A refused journal changes neither state nor answers, and the
 * rest of its report is zeros. */
void ration_run(uint8_t state[RATION_SIZE], const uint8_t *journal, size_t length, uint8_t *answers, size_t room,
                uint8_t report[RATION_REPORT]);

/* Makes kept what it is before a journal's first piece, 9 zeros, whatever its bytes were. */
void ration_begin(uint8_t kept[RATION_KEPT]);

/* Runs what has arrived of a journal, of any length: piece, of length bytes, goes on where the bytes taken since ration_begin end,
 * be that inside the header or a record. At most allowance records are run. last says that the input ends with this piece.
 * Answers RATION_DONE, and says in *records how many records were run and in *bytes how many bytes of the piece were taken; the
 * caller offers the others again, in front of what arrives later. Record n of this call, counted from 0, has its answer at bytes 8n
 * to 8n + 7 of answers, which has room bytes; the rest of answers stays. Where no whole record is left to be run, all of the piece
 * is taken, and bytes of a begun record are kept; otherwise it is taken up to the last record that was run, and its header bytes in
 * any case. So with an allowance at least one byte of a piece is taken.
 * Refused with the first that applies of RATION_REFUSED_STATE; RATION_REFUSED_HEADER, if a header byte in the piece is wrong, the
 * input ends while the header is short, or a count in kept is out of range; and RATION_REFUSED_ANSWER_BUFFER, if room is less than
 * RATION_ANSWER for each record to be run. *records and *bytes are then 0 and nothing else changes, but that RATION_REFUSED_HEADER
 * sets byte RATION_KEPT_HEADER of kept to 255: a valid state is refused with it from then on, until ration_begin. */
uint8_t ration_feed(uint8_t state[RATION_SIZE], uint8_t kept[RATION_KEPT], const uint8_t *piece, size_t length, size_t allowance,
                    bool last, uint8_t *answers, size_t room, size_t *records, size_t *bytes);

/* Writes the whole state, with its policy, to image, which has length bytes, and answers RATION_DONE; the state stays as it was.
 * RATION_REFUSED_STATE if the state is not valid, then RATION_REFUSED_IMAGE if length is not RATION_IMAGE: image is then as it was.
 * Whoever keeps the image in a file writes a new file beside the old one, syncs it, renames it and syncs the folder, as ./rpj does: a
 * loss of power then leaves one of them. */
uint8_t ration_save(const uint8_t state[RATION_SIZE], uint8_t *image, size_t length);

/* Makes the state the one that the image of length bytes holds, whatever its bytes were, and answers RATION_DONE. The policy is the
 * image's, and write-back where its version is 1. RATION_REFUSED_IMAGE if these bytes are no image of either version, then
 * RATION_REFUSED_STATE if the state that it holds is not valid: state is then as it was. */
uint8_t ration_load(uint8_t state[RATION_SIZE], const uint8_t *image, size_t length);

/* Makes the state the one that the image of length bytes holds, valid or not, and answers RATION_DONE: so a damaged host can be
 * checked. The policy is as for ration_load. RATION_REFUSED_IMAGE if these bytes are no image of either version: state is then as it
 * was. */
uint8_t ration_open(uint8_t state[RATION_SIZE], const uint8_t *image, size_t length);

/* Checks one rule of the state, whatever the others say: RATION_RULE_HOLDS or RATION_RULE_BROKEN, and RATION_RULE_UNKNOWN if rule is 0
 * or past RATION_RULES. The state is valid exactly if all of them hold. Of a broken rule *part and *place say where it is broken first,
 * in the order of docs/RULES.md; else both are 0:
 *
 *   rule    part                      place
 *   1, 5    0                         the guest
 *   2, 6    0                         the page
 *   3       RATION_PART_3_ADDRESSES   RATION_PHYSICALS * guest + physical address
 *           RATION_PART_3_PAGES       the page
 *   4       0                         RATION_VIRTUALS * page + virtual address
 *   7, 11   0                         RATION_WAYS * set + way
 *   8       0                         the slot
 *   9       RATION_PART_9_WAYS        the way, of set 7
 *           RATION_PART_9_HISTORY     0, the history of set 7
 *   10      RATION_FIELD_..           the place in the field, as docs/STATE.md counts them
 *           RATION_PART_10_GUESTS     the guest
 *           RATION_PART_10_LINES      RATION_WAYS * set + way
 *           RATION_PART_10_SLOTS      the slot */
uint8_t ration_broken(const uint8_t state[RATION_SIZE], uint8_t rule, uint8_t *part, uint16_t *place);

#ifdef __cplusplus
}
#endif

#endif
