/*
 * A search's end: a queue is narrowed, and later widened again. Two workers put and take by turns; prints for each take the row, the sub and the
 * distance, and the bound of its window's size. What is in the queue when the size is set is taken from windows as wide as before.
 */
#include "pool.h"
#include <stdio.h>

enum { WIDTH = 3, DEPTH = 2, ROWS = 12, WORKERS = 2 };

#define WORDS POOL_WORDS(WIDTH, ROWS, WORKERS)

static uint32_t words[WORDS], fields[POOL_FIELDS];

static uint32_t finished(uint32_t worker) {
    uint32_t number;
    while (!POOL_FINAL(number = pool_step(words, WORDS, worker, fields))) {
    }
    return number;
}

static void put(uint32_t items) {
    for (uint32_t i = 0; i < items; i++) {
        pool_begin_put(words, WORDS, i % WORKERS, 1, fields);
        finished(i % WORKERS);
    }
}

static void take(const char *when, uint32_t width, uint32_t depth) {
    printf("%s, at most %u passed over:", when, POOL_BOUND(POOL_QUEUE, width, depth, depth));
    for (uint32_t i = 0; i < 6; i++) {
        pool_begin_take(words, WORDS, i % WORKERS, fields);
        if (finished(i % WORKERS) == POOL_TAKEN) {
            printf(" %u/%u: %u", fields[POOL_SUB], fields[POOL_ROW], fields[POOL_DISTANCE]);
        } else {
            printf(" empty");
        }
    }
    printf("\n");
}

int main(void) {
    pool_make(words, WORDS, POOL_QUEUE, WIDTH, DEPTH, DEPTH, ROWS, WORKERS, 0, fields);
    put(6);
    printf("narrowed: %u\n", pool_set_size(words, WORDS, 1, DEPTH));
    put(5);
    take("from the wide window", WIDTH, DEPTH);
    take("from narrow ones", 1, DEPTH);
    printf("widened again: %u\n", pool_set_size(words, WORDS, WIDTH, DEPTH));
    put(7);
    take("the last narrow row, then wide ones", WIDTH, DEPTH);
    printf("too wide, too deep, for half of the rows: %u %u %u\n", pool_set_size(words, WORDS, WIDTH + 1, 1), pool_set_size(words, WORDS, 1, 65),
           pool_set_size(words, WORDS, 1, ROWS / 2 + 1));
    pool_make(words, WORDS, POOL_STACK, WIDTH, DEPTH, 1, ROWS, WORKERS, 0, fields);
    printf("a stack: %u\n", pool_set_size(words, WORDS, 1, 1));
    return 0;
}
