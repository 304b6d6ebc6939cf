/* The workers' cards: eight workers on a queue of four subs, half full, round robin, with each stride; how many of their commits failed. */
#include "pool.h"
#include <stdio.h>

enum { WIDTH = 4, DEPTH = 4, ROWS = 64, WORKERS = 8, OPERATIONS = 20000 };

#define WORDS POOL_WORDS(WIDTH, ROWS, WORKERS)

static uint32_t words[WORDS], fields[POOL_FIELDS], coin;

/* A put or a take, by a coin. */
static void begin(uint32_t worker) {
    coin = coin * 1664525u + 1013904223u;
    if (coin >> 31) {
        pool_begin_take(words, WORDS, worker, fields);
    } else {
        pool_begin_put(words, WORDS, worker, worker + 1, fields);
    }
}

static void play(uint32_t stride) {
    uint32_t i, worker = 0, finished = 0;
    pool_make(words, WORDS, POOL_QUEUE, WIDTH, DEPTH, DEPTH, ROWS, WORKERS, stride, fields);
    for (i = 0; i < WIDTH * ROWS / 2; i++) {
        pool_begin_put(words, WORDS, 0, 1, fields);
        while (!POOL_FINAL(pool_step(words, WORDS, 0, fields))) {
        }
    }
    coin = 1;
    for (i = 0; i < WORKERS; i++) {
        begin(i);
    }
    while (finished < OPERATIONS) {
        if (POOL_FINAL(pool_step(words, WORDS, worker, fields))) {
            finished++;
            begin(worker);
        }
        worker = (worker + 1) % WORKERS;
    }
}

int main(void) {
    uint32_t stride, worker;
    for (stride = 0; stride < WIDTH; stride++) {
        uint32_t lost = 0;
        play(stride);
        printf("stride %u: cards", stride);
        for (worker = 0; worker < WORKERS; worker++) {
            printf(" %u", POOL_LOST(words, WIDTH, worker));
            lost += POOL_LOST(words, WIDTH, worker);
        }
        printf(", %u failed commits in %u operations\n", lost, OPERATIONS);
    }
    return 0;
}
