/*
 * A turnaround: a pool with operations under way is moved back to edition 0, as an old box saved it, and forward again, an edition at a time; then both go on
 * side by side. The last lines are of moves that are refused.
 */
#include "pool.h"
#include <stdio.h>
#include <string.h>

enum { WIDTH = 2, DEPTH = 2, SHIFT = 1, ROWS = 8, WORKERS = 3, STRIDE = 1 };

#define WORDS POOL_WORDS(WIDTH, ROWS, WORKERS)
#define WORDS_1 POOL_WORDS_1(WIDTH, ROWS, WORKERS)
#define WORDS_0 POOL_WORDS_0(WIDTH, ROWS, WORKERS)

static uint32_t pool[WORDS], one[WORDS_1], saved[WORDS_0], again[WORDS_0], moved[POOL_MAX_WORDS];

/* Puts and takes by turns, so that commits fail; they are left where they are. */
static void work(uint32_t *words, size_t len) {
    uint32_t fields[POOL_FIELDS], worker, step;
    for (step = 0; step < 100; step++) {
        worker = step % WORKERS;
        if (pool_step(words, len, worker, fields) == POOL_IDLE) {
            if (step % 4 == 3) {
                pool_begin_take(words, len, worker, fields);
            } else {
                pool_begin_put(words, len, worker, 10 + step, fields);
            }
        }
    }
}

static void print_cards(const char *whose, const uint32_t *words) {
    uint32_t worker;
    printf("%s: edition %u, cards", whose, words[POOL_EDITION_AT]);
    for (worker = 0; worker < WORKERS; worker++) {
        printf(" %u", POOL_LOST(words, WIDTH, worker));
    }
    printf("\n");
}

int main(void) {
    uint32_t fields[POOL_FIELDS], also[POOL_FIELDS], worker, steps, same = 0, different = 0;
    pool_make(pool, WORDS, POOL_STACK, WIDTH, DEPTH, SHIFT, ROWS, WORKERS, STRIDE, fields);
    work(pool, WORDS);
    print_cards("at work", pool);

    printf("back to edition 1: %u, %u words\n", pool_move_2_to_1(pool, WORDS, one, WORDS_1), WORDS_1);
    printf("back to edition 0: %u, %u words\n", pool_move_1_to_0(one, WORDS_1, saved, WORDS_0), WORDS_0);
    printf("forward to edition 1: %u, %u words\n", pool_move_0_to_1(saved, WORDS_0, one, WORDS_1), WORDS_1);
    printf("forward to edition 2: %u, %u words\n", pool_move_1_to_2(one, WORDS_1, moved, POOL_MAX_WORDS), WORDS);
    print_cards("moved", moved);
    printf("back again: %u, ", pool_move_2_to_1(moved, WORDS, one, WORDS_1));
    printf("%u, ", pool_move_1_to_0(one, WORDS_1, again, WORDS_0));
    printf("%s\n", memcmp(saved, again, sizeof saved) == 0 ? "the same words" : "other words");

    /* The one that never moved, and the one that did: each worker goes on until it is answered, and takes what is left. */
    for (worker = 0; worker < WORKERS; worker++) {
        for (steps = 0; steps < 200; steps++) {
            uint32_t one = pool_step(pool, WORDS, worker, fields);
            uint32_t two = pool_step(moved, POOL_MAX_WORDS, worker, also);
            if (one == two && memcmp(fields, also, sizeof fields) == 0) {
                same++;
            } else {
                different++;
            }
            if (one == POOL_IDLE) {
                pool_begin_take(pool, WORDS, worker, fields);
                pool_begin_take(moved, POOL_MAX_WORDS, worker, fields);
            }
        }
    }
    printf("%u steps of each, %u answered alike, %u not\n", same + different, same, different);

    printf("the wrong way: %u\n", pool_move_0_to_1(pool, WORDS, moved, POOL_MAX_WORDS));
    printf("too short a target: %u\n", pool_move_1_to_2(one, WORDS_1, moved, WORDS - 1u));
    printf("half a file: %u\n", pool_move_0_to_1(saved, WORDS_0 / 2u, moved, POOL_MAX_WORDS));

    /* A queue in which a size was set, even the pool's own, stays in edition 2. */
    pool_make(pool, WORDS, POOL_QUEUE, WIDTH, DEPTH, DEPTH, ROWS, WORKERS, STRIDE, fields);
    printf("a new queue: %u, ", pool_move_2_to_1(pool, WORDS, one, WORDS_1));
    printf("and with a size set: %u, ", pool_set_size(pool, WORDS, WIDTH, DEPTH));
    printf("%u\n", pool_move_2_to_1(pool, WORDS, one, WORDS_1));
    return 0;
}
