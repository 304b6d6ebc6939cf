/* What spacers, items of value 0, do to a distance: the same calls on a queue of three subs, with three lists of values. */
#include "pool.h"
#include <stdio.h>

enum { WIDTH = 3, DEPTH = 2, ROWS = 4, WORKERS = 3, ITEMS = 5 };

#define WORDS POOL_WORDS(WIDTH, ROWS, WORKERS)

static uint32_t words[WORDS], fields[POOL_FIELDS];

static uint32_t finish(uint32_t worker) {
    uint32_t number;
    do {
        number = pool_step(words, WORDS, worker, fields);
    } while (number == POOL_MOVING);
    return number;
}

static void put(uint32_t worker, uint32_t value) {
    pool_begin_put(words, WORDS, worker, value, fields);
    finish(worker);
}

/* Workers 0 and 1 put two items each, worker 2 the last one. Then worker 2 takes its own, past the four older ones: the bound. */
static void show(const char *what, const uint32_t values[ITEMS]) {
    uint32_t i;
    pool_make(words, WORDS, POOL_QUEUE, WIDTH, DEPTH, DEPTH, ROWS, WORKERS, 0, fields);
    for (i = 0; i < ITEMS; i++) {
        put(i / 2, values[i]);
    }
    pool_begin_take(words, WORDS, 2, fields);
    if (finish(2) == POOL_TAKEN) {
        printf("%s: value %u, distance %u\n", what, fields[POOL_VALUE], fields[POOL_DISTANCE]);
    }
}

int main(void) {
    const uint32_t blends[ITEMS] = {11, 12, 13, 14, 15};
    const uint32_t past_spacers[ITEMS] = {POOL_SPACER, POOL_SPACER, POOL_SPACER, POOL_SPACER, 15};
    const uint32_t a_spacer[ITEMS] = {11, POOL_SPACER, POOL_SPACER, 14, POOL_SPACER};
    printf("a take passes over at most %u items\n", POOL_BOUND(POOL_QUEUE, WIDTH, DEPTH, DEPTH));
    show("past four blends", blends);
    show("past four spacers", past_spacers);
    show("a spacer, past two blends and two spacers", a_spacer);
    return 0;
}
