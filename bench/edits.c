/* Edits through the library, for a count of their instructions: edits KIND TIMES, after 200 entries. */
#include "phayaklit.h"
#include <stdlib.h>

static uint16_t service[PHAYAKLIT_SERVICE_WORDS], published[PHAYAKLIT_INDEX_WORDS];

static phayaklit_entry spell(uint16_t number, uint16_t first, uint16_t last, uint32_t grade) {
    phayaklit_entry entry = {0};
    entry.number = number;
    entry.candidate = number;
    entry.first = first;
    entry.last = last;
    entry.value = grade;
    return entry;
}

static void edit(int kind, int turn) {
    switch (kind) {
    case 0: phayaklit_amend(service, spell(100, 700, (uint16_t)(790 + turn % 2), 1)); break;
    case 1: phayaklit_amend(service, spell(100, 700, 790, 4)); break;
    case 2: phayaklit_strike(service, 999); break;
    case 3: turn % 2 == 0 ? phayaklit_strike(service, 100) : phayaklit_take_back(service); break;
    default: turn % 2 == 0 ? phayaklit_enter(service, spell(999, 700, 790, 4)) : phayaklit_strike(service, 999); break;
    }
}

int main(int count, char **words) {
    int kind = count > 2 ? atoi(words[1]) : 0, times = count > 2 ? atoi(words[2]) : 0;
    phayaklit_fresh(service, published);
    for (uint16_t number = 1; number <= 200; number++)
        phayaklit_enter(service, spell(number, (uint16_t)(number * 7), (uint16_t)(number * 7 + 90), 4));
    for (int turn = 0; turn < times; turn++) edit(kind, turn);
    return 0;
}
