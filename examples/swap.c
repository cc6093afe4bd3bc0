/* A host in C that publishes while threads ask. It has two indexes: one is asked, and the other one is spare. Each has a count of
 * its readers. The publisher publishes into the spare one, once nobody reads it, and then has it asked.
 *
 * Why no reader sees an index that is being written: a reader counts itself first and tests afterwards that the index is still
 * the one that is asked; the publisher changes which one is asked first and tests afterwards that nobody is counted at the
 * other. All of these are atomic and in one order that every thread sees. So of a reader and a publisher at one index, at
 * least one sees the other: the reader goes to the other index, or the publisher waits. */
#include <pthread.h>
#include <sched.h>
#include <stdatomic.h>
#include <stdbool.h>
#include <stdio.h>

#include "phayaklit.h"

#define READERS 3
#define EDITIONS 200
#define SPELLS 64
#define DAY 5

typedef struct published {
    uint16_t words[PHAYAKLIT_INDEX_WORDS];
    atomic_uint readers;
} published;

static uint16_t service[PHAYAKLIT_SERVICE_WORDS];
static published indexes[2];
static _Atomic(published *) asked;

/* The archive is not compiled for the thread sanitizer: what its calls read and write is told here. */
#if defined(__SANITIZE_THREAD__)
void __tsan_read_range(void *words, unsigned long size);
void __tsan_write_range(void *words, unsigned long size);
static void reads(published *index) { __tsan_read_range(index->words, sizeof index->words); }
static void writes(published *index) { __tsan_write_range(index->words, sizeof index->words); }
#else
static void reads(published *index) { (void)index; }
static void writes(published *index) { (void)index; }
#endif

/* ---- Reading */

/* The index to ask, with this reader counted. */
static published *begin_reading(void) {
    for (;;) {
        published *index = atomic_load(&asked);
        atomic_fetch_add(&index->readers, 1);
        if (index == atomic_load(&asked)) {
            return index;
        }
        atomic_fetch_sub(&index->readers, 1);
    }
}

static void end_reading(published *index) { atomic_fetch_sub(&index->readers, 1); }

/* ---- Publishing. One thread edits and publishes. */

static void publish(void) {
    published *spare = atomic_load(&asked) == &indexes[0] ? &indexes[1] : &indexes[0];
    while (atomic_load(&spare->readers) != 0) {
        sched_yield();
    }
    phayaklit_publish(service, 1, spare->words);
    writes(spare);
    atomic_store(&asked, spare);
}

/* ---- The lists. Edition e has SPELLS spells, numbered from e * SPELLS, that all stand on one day. */

static uint16_t number_of(unsigned edition, unsigned at) { return (uint16_t)(edition * SPELLS + at); }

/* Replaces every spell of the edition before, one edit after another, and publishes. Returns how many edits were refused. */
static unsigned publish_edition(unsigned edition) {
    unsigned refused = 0;
    for (unsigned at = 0; at < SPELLS; at++) {
        phayaklit_entry entry = {number_of(edition, at), 1, 1, 9, PHAYAKLIT_GRADE, 1};
        if (edition > 1) {
            refused += phayaklit_strike(service, number_of(edition - 1, at)).refusal != PHAYAKLIT_ACCEPTED;
        }
        refused += phayaklit_enter(service, entry).refusal != PHAYAKLIT_ACCEPTED;
    }
    publish();
    return refused;
}

/* ---- The readers' threads */

typedef struct reader {
    pthread_t thread;
    unsigned last;  /* the edition of the last answer; 0 before the first one is published */
    unsigned mixed; /* answers that are no whole edition */
    unsigned older; /* answers of an edition before that of the answer before */
} reader;

/* The answer is a whole edition, or nobody. */
static bool whole(unsigned edition, const uint16_t *numbers, size_t count) {
    if (edition == 0) {
        return count == 0;
    }
    if (count != SPELLS) {
        return false;
    }
    for (unsigned at = 0; at < SPELLS; at++) {
        if (numbers[at] != number_of(edition, at)) {
            return false;
        }
    }
    return true;
}

/* Asks until the last edition is there. */
static void *ask(void *argument) {
    reader *self = (reader *)argument;
    uint16_t numbers[PHAYAKLIT_SPELLS];
    while (self->last != EDITIONS && self->mixed == 0) {
        published *index = begin_reading();
        phayaklit_reply reply = phayaklit_day(index->words, DAY, numbers, PHAYAKLIT_SPELLS);
        reads(index);
        end_reading(index);
        unsigned edition = reply.count == 0 ? 0 : numbers[0] / SPELLS;
        self->mixed += !whole(edition, numbers, reply.count);
        self->older += edition < self->last;
        self->last = edition;
    }
    return NULL;
}

int main(void) {
    reader readers[READERS] = {0};
    unsigned refused = 0;
    phayaklit_fresh(service, indexes[0].words);
    phayaklit_fresh_index(indexes[1].words);
    atomic_store(&asked, &indexes[0]);
    for (int at = 0; at < READERS; at++) {
        if (pthread_create(&readers[at].thread, NULL, ask, &readers[at]) != 0) {
            return 1;
        }
    }
    for (unsigned edition = 1; edition <= EDITIONS; edition++) {
        refused += publish_edition(edition);
    }
    printf("publisher: %d editions, %u edits refused\n", EDITIONS, refused);
    for (int at = 0; at < READERS; at++) {
        pthread_join(readers[at].thread, NULL);
        printf("reader %d: last edition %u, %u mixed answers, %u older ones\n", at + 1, readers[at].last, readers[at].mixed,
               readers[at].older);
    }
    return 0;
}
