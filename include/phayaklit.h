/*
 * The standing list of spells, for programs in C and C++ on x86-64 Linux.
 *
 * Link libphayaklit.a, which `bin/archive` proves and writes to target/staticlib/. Every function comes back on every argument,
 * with blocks that the calls gave, and does nothing undefined. It allocates nothing, keeps nothing of its own between calls and
 * calls no other library than the C library's memory functions.
 *
 * THE HOST LENDS THE MEMORY. A service is two blocks of 16-bit words: one for the standing list and its past, one, the index,
 * for the published list with its tree. Any number of services live side by side, each with its own two blocks. The words may
 * lie anywhere: in static memory, on the heap, in memory shared between processes, in a file that is mapped. They hold no
 * pointers. A whole program (<strings.h> has a function `index`, so a block has better another name):
 *
 *     #include <stdio.h>
 *     #include <string.h>
 *     #include "phayaklit.h"
 *
 *     static uint16_t service[PHAYAKLIT_SERVICE_WORDS];
 *     static uint16_t published[PHAYAKLIT_INDEX_WORDS];
 *
 *     int main(void) {
 *         const char *text = "11\t7\t1\t10\tG\t2\n12\t8\t3\t4\tC\t3F800000\n";
 *         uint16_t numbers[PHAYAKLIT_SPELLS];
 *         phayaklit_opened opened = phayaklit_read((const uint8_t *)text, strlen(text), service, published);
 *         if (opened.refusal != PHAYAKLIT_ACCEPTED) {
 *             printf("line %u: %s\n", opened.line, phayaklit_refusal_word(opened.refusal));
 *             return 1;
 *         }
 *         phayaklit_publish(service, 1, published);
 *         phayaklit_reply reply = phayaklit_day(published, 3, numbers, PHAYAKLIT_SPELLS);
 *         printf("%zu stand on day 3, %zu looks:", reply.count, reply.looks);
 *         for (size_t at = 0; at < reply.count; at++) {
 *             printf(" %u", numbers[at]);
 *         }
 *         printf("\n");
 *         return 0;
 *     }
 *
 * WHAT THE HOST MUST KEEP. The proofs take this for granted, and nothing tests it:
 *
 * - A block has its full number of words and is aligned to 2 bytes.
 * - Both blocks begin by phayaklit_fresh or phayaklit_read, an index also by phayaklit_fresh_index or phayaklit_publish, and
 *   afterwards no other code writes them, not between calls and not during one. A copy of a whole block that no call was writing
 *   meanwhile is as good as the block.
 * - Two calls may run at a time, in threads or processes, if neither of them writes a block that the other one uses. So any
 *   number of questions may be put to one index at a time, with edits of the service meanwhile; but nobody publishes, reads a
 *   register or starts anew into that index meanwhile. A host that publishes while others ask has two indexes, publishes into
 *   the one that nobody asks, and then has it asked (examples/swap.c). Which calls write which block is said at each: a block
 *   that a call takes as `const` is only read.
 * - A list is a pointer and its number of places, which are all there. The pointer is not null, for a list of no places
 *   too, and is aligned to 2 bytes where the places are words, and to 4 where they have 32 bits.
 * - The blocks and lists of one call do not overlap, except that two that are only read may.
 * - A call has PHAYAKLIT_STACK_BYTES of stack, and phayaklit_repair PHAYAKLIT_REPAIR_STACK_BYTES.
 *
 * WHERE IT IS NOT KEPT nothing is promised. A block may be made up, torn (written during a call, or copied or saved in the
 * middle of one), damaged, or of another version of this library. With such a block a call may not come back. It may read or
 * write memory outside its blocks and lists, and so end the program with a fault. It may come back with a wrong list, and leave
 * a block that is none. No call finds out that a block is one of these. So what comes from outside, from a file or from a
 * program that is not trusted, is taken as a register text, by phayaklit_read, which may be lent any bytes.
 *
 * REFUSALS. A call that is refused changes nothing: both blocks and every place of every list stay as they were. Only a
 * refused reading writes the blocks, and makes a fresh service. Its answer has the refusal's number and 0 everywhere else; a
 * reading's has the line too.
 */
#ifndef PHAYAKLIT_H
#define PHAYAKLIT_H

#include <stddef.h>
#include <stdint.h>

#ifdef __cplusplus
extern "C" {
#endif

/* The version of these functions and of what the blocks hold; phayaklit_version returns that of the archive. Blocks that one
 * version wrote are no blocks of another one. */
#define PHAYAKLIT_VERSION 4

/* The sizes of the two blocks, in words of 16 bits. In an index each link, its absence included, is a word: those to parent,
 * left sibling, last child and next in chain take 8,192 bytes in all. */
#define PHAYAKLIT_SERVICE_WORDS 7746
#define PHAYAKLIT_INDEX_WORDS 21306

/* More stack than any call takes, but for phayaklit_repair, and more than that one takes. */
#define PHAYAKLIT_STACK_BYTES 262144
#define PHAYAKLIT_REPAIR_STACK_BYTES 524288

/* Limits: the standing spells, the lists in the past, the calendar's last day, the bytes of a register that is read, and the
 * bytes that the largest register takes when it is written. A list of PHAYAKLIT_SPELLS places is never too short, nor is one of
 * PHAYAKLIT_REMARKS for what a repair says of dropped lines. */
#define PHAYAKLIT_SPELLS 1024
#define PHAYAKLIT_PAST 64
#define PHAYAKLIT_LAST_DAY 4000
#define PHAYAKLIT_READ_BYTES 65536
#define PHAYAKLIT_WRITE_BYTES 33792
#define PHAYAKLIT_REMARKS 131072

/* The numbers of refusals. */
enum phayaklit_refusal {
    PHAYAKLIT_ACCEPTED = 0,
    PHAYAKLIT_NO_NUMBER = 1,        /* no spell: spell number 0 */
    PHAYAKLIT_NO_CANDIDATE = 2,     /* no candidate: candidate 0 */
    PHAYAKLIT_OFF_CALENDAR = 3,     /* off calendar: a day outside 1 to 4,000 */
    PHAYAKLIT_REVERSED = 4,         /* backwards: last day before first day, of a spell or a span */
    PHAYAKLIT_BAD_URGENCY = 5,      /* bad urgency: grade or reading outside its range, or neither */
    PHAYAKLIT_DUPLICATE_NUMBER = 6, /* taken: the spell number already stands, or stood on an earlier line */
    PHAYAKLIT_UNKNOWN_NUMBER = 7,   /* unknown: the spell number doesn't stand (for cover: isn't published) */
    PHAYAKLIT_FULL = 8,             /* full: 1,024 already stand, or stood on earlier lines */
    PHAYAKLIT_NO_HISTORY = 9,       /* no past: take back with an empty past */
    PHAYAKLIT_UNSORTED_DAYS = 10,   /* days unsorted: a day not above the one before */
    PHAYAKLIT_SHORT_BUFFER = 11,    /* short list: the answer or the text exceeds the lent list */
    PHAYAKLIT_MALFORMED = 12,       /* malformed: a text above 65,536 bytes (line 0), or a line not of the form */
    PHAYAKLIT_OUT_OF_ORDER = 13,    /* misplaced: a line not after the one before in the order */
    PHAYAKLIT_NO_SUCH_RULE = 14     /* no such rule: publishing by a rule other than 1 or 2 */
};

/* The kinds of urgency. */
enum phayaklit_kind {
    PHAYAKLIT_GRADE = 0,  /* `value` is the grade, 1 to 4 */
    PHAYAKLIT_READING = 1 /* `value` has the IEEE 754 bits of the reading, at most 0x447A0000 (1000.0) */
};

/* A spell as it is entered. Both days are counted in. Any other kind is a bad urgency, and so is any other value. */
typedef struct phayaklit_entry {
    uint16_t number;
    uint16_t candidate;
    uint16_t first;
    uint16_t last;
    uint16_t kind;
    uint32_t value;
} phayaklit_entry;

/* What a call answers: the refusal's number or 0; how many spells a question lists; the looks of day, span and cover; the
 * length of a written text; how many days a mask ticks. What a call does not report is 0. */
typedef struct phayaklit_reply {
    uint16_t refusal;
    size_t count;
    size_t looks;
    size_t length;
    size_t ticked;
} phayaklit_reply;

/* What reading answers: the refusal's number with its line, counted from 1, or 0 and 0. */
typedef struct phayaklit_opened {
    uint16_t refusal;
    uint16_t line;
} phayaklit_opened;

/* What a repair answers: the refusal's number, with line 0, or 0; the length of the repaired text; how many lines were dropped; how many
 * kept lines now stand after a line that followed them. */
typedef struct phayaklit_repaired {
    uint16_t refusal;
    uint16_t line;
    size_t length;
    size_t dropped;
    size_t displaced;
} phayaklit_repaired;

/* A refusal's trade word; "accepted" for 0, and "unknown refusal" for a number that no call returns. */
static inline const char *phayaklit_refusal_word(uint16_t refusal) {
    switch (refusal) {
    case PHAYAKLIT_ACCEPTED: return "accepted";
    case PHAYAKLIT_NO_NUMBER: return "no spell";
    case PHAYAKLIT_NO_CANDIDATE: return "no candidate";
    case PHAYAKLIT_OFF_CALENDAR: return "off calendar";
    case PHAYAKLIT_REVERSED: return "backwards";
    case PHAYAKLIT_BAD_URGENCY: return "bad urgency";
    case PHAYAKLIT_DUPLICATE_NUMBER: return "taken";
    case PHAYAKLIT_UNKNOWN_NUMBER: return "unknown";
    case PHAYAKLIT_FULL: return "full";
    case PHAYAKLIT_NO_HISTORY: return "no past";
    case PHAYAKLIT_UNSORTED_DAYS: return "days unsorted";
    case PHAYAKLIT_SHORT_BUFFER: return "short list";
    case PHAYAKLIT_MALFORMED: return "malformed";
    case PHAYAKLIT_OUT_OF_ORDER: return "misplaced";
    case PHAYAKLIT_NO_SUCH_RULE: return "no such rule";
    default: return "unknown refusal";
    }
}

/* The version of the archive, to compare with PHAYAKLIT_VERSION. */
uint32_t phayaklit_version(void);

/* ---- The beginning. The blocks may hold anything beforehand. */

/* Makes a fresh service: nothing stands, nothing is published, and there is no past. Writes both blocks. */
void phayaklit_fresh(uint16_t *service, uint16_t *index);

/* Makes the service of a register text: its spells stand, nothing is published, and there is no past. A refused text makes a
 * fresh service. Writes both blocks. Refusals: 12, 1 to 5, 6, 13, 8. */
phayaklit_opened phayaklit_read(const uint8_t *text, size_t text_length, uint16_t *service, uint16_t *index);

/* Makes an index of nobody by itself, a second one to publish into. Writes the index. */
void phayaklit_fresh_index(uint16_t *index);

/* ---- Edits. They write the service. An accepted edit puts the former standing list to the front of the past. */

/* Puts a spell in. Refusals: 1, 2, 3, 4, 5, 6, 8. */
phayaklit_reply phayaklit_enter(uint16_t *service, phayaklit_entry entry);

/* Replaces the spell of that number by the given one. Refusals: 1 to 5, 7. */
phayaklit_reply phayaklit_amend(uint16_t *service, phayaklit_entry entry);

/* Removes the spell of that number. Refusal: 7. */
phayaklit_reply phayaklit_strike(uint16_t *service, uint16_t number);

/* The standing list becomes the front of the past, which loses it. Refusal: 9. */
phayaklit_reply phayaklit_take_back(uint16_t *service);

/* ---- Publish and writing. They read the service. */

/* The published list becomes the standing list, by rule 1 with the days as entered, by rule 2 with each reading until the earlier
 * of its last day and its first day + 6. Writes the index, which may hold anything beforehand: a service may be published into one
 * block while questions are put to another. Refusal: 14. */
phayaklit_reply phayaklit_publish(const uint16_t *service, uint16_t rule, uint16_t *index);

/* Writes the register text of the standing list into the first places of a list of bytes; the others keep what they hold.
 * `length` is the text's. Refusal: 11. */
phayaklit_reply phayaklit_write(const uint16_t *service, uint8_t *text, size_t text_length);

/* ---- Questions. They read the index where it lies and copy none of it. The numbers of the published spells that fit go to
 * the first places of a list, each once, by first day, last day and number; the others keep what they hold. `count` is how
 * many they are. */

/* The spells with first <= day <= last. Refusals: 3, 11. */
phayaklit_reply phayaklit_day(const uint16_t *index, uint16_t day, uint16_t *numbers, size_t numbers_length);

/* The spells with first <= b and last >= a. Refusals: 3, 4, 11. */
phayaklit_reply phayaklit_span(const uint16_t *index, uint16_t a, uint16_t b, uint16_t *numbers, size_t numbers_length);

/* The spells with first <= the first and last >= the last day of the published spell of that number, itself among them.
 * Refusals: 7, 11. */
phayaklit_reply phayaklit_cover(const uint16_t *index, uint16_t number, uint16_t *numbers, size_t numbers_length);

/* The spells that contain at least one of the days, which rise strictly. No looks are reported. Refusals: 3, 10, 11. */
phayaklit_reply phayaklit_days(const uint16_t *index, const uint16_t *days, size_t days_length, uint16_t *numbers,
                               size_t numbers_length);

/* The spells that contain at least one of the ticked days: bit i of the mask, bit 0 the lowest, ticks the day base + i. `ticked` is how
 * many days are ticked. No looks are reported. An empty mask lists nobody, whatever its base. Refusals: 3, 11. */
phayaklit_reply phayaklit_mask(const uint16_t *index, uint16_t base, uint64_t mask, uint16_t *numbers, size_t numbers_length);

/* ---- A register that came through a bad line. This function is in an archive of its own: link target/staticlib/libhost_repair.a too,
 * which `bin/archive host_repair` proves and writes. It uses no block, and may be called at any time beside any other call. */

/* Makes a good register of a damaged text. From the top, a line is kept that passes 12, 1 to 5, 6 and 8, the last two against the lines that
 * are kept, and every other one is dropped; a last line without LF is dropped as 12. The kept lines go in the order to the first places of
 * `text`. For each dropped line, rising, its line, counted from 1, and the number that it met go to the next two places of `remarks`. Later
 * places keep what they hold. A good register comes out as it was, and nothing is said. Refusals: 12 for a text above 65,536 bytes, then 11
 * where `text` or `remarks` is too short; both lists are then as they were. */
phayaklit_repaired phayaklit_repair(const uint8_t *damaged, size_t damaged_length, uint8_t *text, size_t text_length,
                                    uint32_t *remarks, size_t remarks_length);

#ifdef __cplusplus
}
#endif

#endif
