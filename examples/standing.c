/* A host in C: it enters a register, publishes, asks, writes, reads back, keeps two services side by side, and lets several
 * threads ask one published index. */
#include <inttypes.h>
#include <pthread.h>
#include <stdio.h>

#include "phayaklit.h"

#define THREADS 4

/* The memory of two services. */
static uint16_t service[2][PHAYAKLIT_SERVICE_WORDS];
static uint16_t published[2][PHAYAKLIT_INDEX_WORDS];
static uint8_t text[PHAYAKLIT_WRITE_BYTES];

static const phayaklit_entry REGISTER[] = {
    {11, 7, 1, 10, PHAYAKLIT_GRADE, 2},   {12, 8, 3, 4, PHAYAKLIT_READING, 0x3F800000},
    {14, 9, 5, 6, PHAYAKLIT_GRADE, 4},    {13, 9, 5, 8, PHAYAKLIT_GRADE, 1},
    {15, 7, 7, 12, PHAYAKLIT_READING, 0}, {16, 5, 9, 9, PHAYAKLIT_GRADE, 3},
};

static void said(const char *call, phayaklit_reply reply) { printf("%s: %s\n", call, phayaklit_refusal_word(reply.refusal)); }

/* Prints an answer: the count, the looks, the numbers. */
static void listed(const char *question, phayaklit_reply reply, const uint16_t *numbers) {
    printf("%s: %s, %zu spells, %zu looks:", question, phayaklit_refusal_word(reply.refusal), reply.count, reply.looks);
    for (size_t at = 0; at < reply.count; at++) {
        printf(" %" PRIu16, numbers[at]);
    }
    printf("\n");
}

static void enter_and_ask(void) {
    uint16_t numbers[PHAYAKLIT_SPELLS];
    const uint16_t days[] = {4, 11};
    phayaklit_fresh(service[0], published[0]);
    for (size_t at = 0; at < sizeof REGISTER / sizeof *REGISTER; at++) {
        said("enter", phayaklit_enter(service[0], REGISTER[at]));
    }
    said("enter again", phayaklit_enter(service[0], REGISTER[0]));
    said("enter with grade 65537", phayaklit_enter(service[0], (phayaklit_entry){17, 1, 1, 1, PHAYAKLIT_GRADE, 65537}));
    said("enter with kind 2", phayaklit_enter(service[0], (phayaklit_entry){17, 1, 1, 1, 2, 1}));
    listed("day 5, nothing published", phayaklit_day(published[0], 5, numbers, PHAYAKLIT_SPELLS), numbers);
    said("publish", phayaklit_publish(service[0], 1, published[0]));
    listed("day 5", phayaklit_day(published[0], 5, numbers, PHAYAKLIT_SPELLS), numbers);
    listed("day 5 into two places", phayaklit_day(published[0], 5, numbers, 2), numbers);
    listed("span 9 to 10", phayaklit_span(published[0], 9, 10, numbers, PHAYAKLIT_SPELLS), numbers);
    listed("cover of 14", phayaklit_cover(published[0], 14, numbers, PHAYAKLIT_SPELLS), numbers);
    listed("days 4 and 11", phayaklit_days(published[0], days, 2, numbers, PHAYAKLIT_SPELLS), numbers);
    phayaklit_reply reviewed = phayaklit_mask(published[0], 4, 0x81, numbers, PHAYAKLIT_SPELLS);
    listed("the mask of days 4 and 11", reviewed, numbers);
    printf("the mask of days 4 and 11: %zu days ticked\n", reviewed.ticked);
}

static void write_and_read_back(void) {
    phayaklit_reply written = phayaklit_write(service[0], text, sizeof text);
    printf("write: %s, %zu bytes\n%.*s", phayaklit_refusal_word(written.refusal), written.length, (int)written.length, text);
    phayaklit_opened opened = phayaklit_read(text, written.length - 1, service[1], published[1]);
    printf("read without the last byte: %s, line %u\n", phayaklit_refusal_word(opened.refusal), opened.line);
    opened = phayaklit_read(text, written.length, service[1], published[1]);
    printf("read back: %s, line %u\n", phayaklit_refusal_word(opened.refusal), opened.line);
}

static void side_by_side(void) {
    uint16_t numbers[PHAYAKLIT_SPELLS];
    said("second: take back", phayaklit_take_back(service[1]));
    said("second: strike 13", phayaklit_strike(service[1], 13));
    said("second: amend 14", phayaklit_amend(service[1], (phayaklit_entry){14, 9, 2, 6, PHAYAKLIT_GRADE, 4}));
    said("second: publish", phayaklit_publish(service[1], 1, published[1]));
    listed("first: day 5", phayaklit_day(published[0], 5, numbers, PHAYAKLIT_SPELLS), numbers);
    listed("second: day 5", phayaklit_day(published[1], 5, numbers, PHAYAKLIT_SPELLS), numbers);
    said("second: take back", phayaklit_take_back(service[1]));
    said("second: take back", phayaklit_take_back(service[1]));
    said("second: take back", phayaklit_take_back(service[1]));
}

/* Asks every day of the first index, and adds up what is listed. */
static void *ask_all(void *total) {
    uint16_t numbers[PHAYAKLIT_SPELLS];
    for (uint16_t day = 1; day <= PHAYAKLIT_LAST_DAY; day++) {
        *(size_t *)total += phayaklit_day(published[0], day, numbers, PHAYAKLIT_SPELLS).count;
    }
    return NULL;
}

static int ask_from_threads(void) {
    pthread_t threads[THREADS];
    size_t totals[THREADS] = {0};
    for (int at = 0; at < THREADS; at++) {
        if (pthread_create(&threads[at], NULL, ask_all, &totals[at]) != 0) {
            return 1;
        }
    }
    for (int at = 0; at < THREADS; at++) {
        pthread_join(threads[at], NULL);
        printf("thread %d: %zu listed over all days\n", at + 1, totals[at]);
    }
    return 0;
}

int main(void) {
    enter_and_ask();
    write_and_read_back();
    side_by_side();
    return ask_from_threads();
}
