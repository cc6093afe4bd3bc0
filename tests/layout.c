/* The layout of the structs of phayaklit.h: the offsets and sizes at compile time, and every field of every struct there and back
 * through the archive, each with a value of its own. It prints the version and the refusals' words. It is compiled as C and as
 * C++. */
#include <assert.h>
#include <stdio.h>
#include <string.h>

#include "phayaklit.h"

static_assert(offsetof(phayaklit_entry, number) == 0, "number");
static_assert(offsetof(phayaklit_entry, candidate) == 2, "candidate");
static_assert(offsetof(phayaklit_entry, first) == 4, "first");
static_assert(offsetof(phayaklit_entry, last) == 6, "last");
static_assert(offsetof(phayaklit_entry, kind) == 8, "kind");
static_assert(offsetof(phayaklit_entry, value) == 12, "value");
static_assert(sizeof(phayaklit_entry) == 16, "entry");

static_assert(offsetof(phayaklit_reply, refusal) == 0, "refusal");
static_assert(offsetof(phayaklit_reply, count) == 8, "count");
static_assert(offsetof(phayaklit_reply, looks) == 16, "looks");
static_assert(offsetof(phayaklit_reply, length) == 24, "length");
static_assert(offsetof(phayaklit_reply, ticked) == 32, "ticked");
static_assert(sizeof(phayaklit_reply) == 40, "reply");

static_assert(offsetof(phayaklit_opened, refusal) == 0, "refusal");
static_assert(offsetof(phayaklit_opened, line) == 2, "line");
static_assert(sizeof(phayaklit_opened) == 4, "opened");

static uint16_t service[PHAYAKLIT_SERVICE_WORDS];
static uint16_t published[PHAYAKLIT_INDEX_WORDS];
static uint8_t text[PHAYAKLIT_WRITE_BYTES];
static uint16_t numbers[PHAYAKLIT_SPELLS];
static int faults;

static void same(const char *what, size_t seen, size_t expected) {
    if (seen != expected) {
        printf("layout.c: %s is %zu and not %zu\n", what, seen, expected);
        faults++;
    }
}

static void replied(const char *call, phayaklit_reply reply, uint16_t refusal, size_t count, size_t looks, size_t length) {
    char what[64];
    snprintf(what, sizeof what, "%s: refusal", call);
    same(what, reply.refusal, refusal);
    snprintf(what, sizeof what, "%s: count", call);
    same(what, reply.count, count);
    snprintf(what, sizeof what, "%s: looks", call);
    same(what, reply.looks, looks);
    snprintf(what, sizeof what, "%s: length", call);
    same(what, reply.length, length);
}

/* A mask with its number of days ticked, which other calls have as 0. */
static void ticked(const char *call, phayaklit_reply reply, uint16_t refusal, size_t count, size_t days) {
    replied(call, reply, refusal, count, 0, 0);
    same(call, reply.ticked, days);
}

/* Each field is set by its name, and not by its place. */
static phayaklit_entry entry_of(uint16_t number, uint16_t candidate, uint16_t first, uint16_t last, uint16_t kind, uint32_t value) {
    phayaklit_entry entry;
    entry.number = number;
    entry.candidate = candidate;
    entry.first = first;
    entry.last = last;
    entry.kind = kind;
    entry.value = value;
    return entry;
}

/* The entry's fields come back as the text that is written. */
static void entered(phayaklit_entry entry, const char *line) {
    phayaklit_fresh(service, published);
    replied("enter", phayaklit_enter(service, entry), 0, 0, 0, 0);
    replied("write", phayaklit_write(service, text, sizeof text), 0, 0, 0, strlen(line));
    same(line, (size_t)memcmp(text, line, strlen(line)), 0);
}

static phayaklit_opened read_text(const char *bytes) {
    return phayaklit_read((const uint8_t *)bytes, strlen(bytes), service, published);
}

int main(void) {
    const phayaklit_entry graded = entry_of(258, 772, 1286, 1800, PHAYAKLIT_GRADE, 3);
    const phayaklit_entry measured = entry_of(65535, 65534, 3999, 4000, PHAYAKLIT_READING, 0x12345678);
    const phayaklit_entry wide = entry_of(1, 2, 3, 4, PHAYAKLIT_GRADE, 0x10003);
    entered(graded, "258\t772\t1286\t1800\tG\t3\n");
    replied("enter again", phayaklit_enter(service, graded), PHAYAKLIT_DUPLICATE_NUMBER, 0, 0, 0);
    replied("a grade above 65,535", phayaklit_enter(service, wide), PHAYAKLIT_BAD_URGENCY, 0, 0, 0);
    entered(measured, "65535\t65534\t3999\t4000\tC\t12345678\n");
    replied("amend", phayaklit_amend(service, graded), PHAYAKLIT_UNKNOWN_NUMBER, 0, 0, 0);

    /* document 01's register A: on day 7 three spells stand, and four looks are taken */
    phayaklit_opened opened = read_text("11\t7\t1\t10\tG\t2\n12\t8\t3\t4\tC\t3F800000\n14\t9\t5\t6\tG\t4\n"
                                        "13\t9\t5\t8\tG\t1\n15\t7\t7\t12\tC\t00000000\n16\t5\t9\t9\tG\t3\n");
    same("read: refusal", opened.refusal, 0);
    same("read: line", opened.line, 0);
    replied("publish", phayaklit_publish(service, 1, published), 0, 0, 0, 0);
    replied("day 7", phayaklit_day(published, 7, numbers, PHAYAKLIT_SPELLS), 0, 3, 4, 0);
    same("day 7: ticked", phayaklit_day(published, 7, numbers, PHAYAKLIT_SPELLS).ticked, 0);
    ticked("the mask of days 4 and 11", phayaklit_mask(published, 4, 0x81, numbers, PHAYAKLIT_SPELLS), 0, 3, 2);
    ticked("a mask off the calendar", phayaklit_mask(published, 65535, UINT64_C(1) << 63, numbers, PHAYAKLIT_SPELLS), 3, 0, 0);
    ticked("an empty mask into no place", phayaklit_mask(published, 65535, 0, numbers, 0), 0, 0, 0);
    ticked("a mask into two places", phayaklit_mask(published, 4, 0x81, numbers, 2), 11, 0, 0);
    replied("write", phayaklit_write(service, text, sizeof text), 0, 0, 0, 94);
    opened = read_text("11\t7\t1\t10\tG\t2\n12\t8\t3\t4\tC\t3F800000\n13\n");
    same("a bad line: refusal", opened.refusal, PHAYAKLIT_MALFORMED);
    same("a bad line: line", opened.line, 3);

    same("phayaklit_version", phayaklit_version(), PHAYAKLIT_VERSION);
    printf("version %d\n", PHAYAKLIT_VERSION);
    for (uint16_t refusal = 1; refusal <= PHAYAKLIT_NO_SUCH_RULE; refusal++) {
        printf("%u %s\n", refusal, phayaklit_refusal_word(refusal));
    }
    same("the word of 0", (size_t)strcmp(phayaklit_refusal_word(0), "accepted"), 0);
    same("the word of 15", (size_t)strcmp(phayaklit_refusal_word(15), "unknown refusal"), 0);
    return faults != 0;
}
