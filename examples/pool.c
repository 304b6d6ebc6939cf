/* Makes a queue, puts a value, takes it again, and prints each answer: number, value, sub, row, stamp, distance. */
#include "pool.h"
#include <stdio.h>

static uint32_t words[POOL_WORDS(2, 4, 1)], fields[POOL_FIELDS];

static uint32_t shown(const char *call, uint32_t number) {
    printf("%s: %u %u %u %u %u %u\n", call, number, fields[0], fields[1], fields[2], fields[3], fields[4]);
    return number;
}

static void finish(void) {
    while (shown("step", pool_step(words, POOL_WORDS(2, 4, 1), 0, fields)) == POOL_MOVING) { }
}

int main(void) {
    shown("make", pool_make(words, POOL_WORDS(2, 4, 1), POOL_QUEUE, 2, 1, 1, 4, 1, 0, fields));
    shown("begin put", pool_begin_put(words, POOL_WORDS(2, 4, 1), 0, 7, fields));
    finish();
    shown("begin take", pool_begin_take(words, POOL_WORDS(2, 4, 1), 0, fields));
    finish();
    return 0;
}
