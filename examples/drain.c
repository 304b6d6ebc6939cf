/*
 * A search's end: the pool has few steps left, and is drained in time. Worker 0 searches while more steps are left than a drain needs, and then stops
 * wherever it is. Worker 1, kept idle for that, takes until it is answered "empty"; each take has as many steps as the header reserves for it.
 * Prints the reserves of some widths (any operation, queue put, queue take, stack), where the search stops, each take (its answer's number, the value,
 * the distance, and the steps that it took), what is left, and how a pool answers whose steps are spent.
 */
#include "pool.h"
#include <stdio.h>

#define WIDTH 2u
#define ROWS 4u
#define LENT POOL_WORDS(WIDTH, ROWS, 2u)
/* Enough for whatever the queue holds. */
#define TO_DRAIN POOL_STEPS_TO_DRAIN(WIDTH, WIDTH * ROWS)

static uint32_t words[LENT], fields[POOL_FIELDS];

/* The steps that worker 1's operation takes to its answer, which `number` gets; 0 if the reserve is not enough. */
static uint32_t alone(uint32_t reserve, uint32_t *number) {
    for (uint32_t step = 1; step <= reserve; step++) {
        *number = pool_step(words, LENT, 1, fields);
        if (*number != POOL_MOVING) { return step; }
    }
    return 0;
}

int main(void) {
    static const uint32_t widths[] = {1, 2, 4, 5, 16};
    for (size_t at = 0; at < sizeof widths / sizeof widths[0]; at++) {
        uint32_t width = widths[at];
        printf("width %u: %u %u %u %u\n", width, POOL_STEPS_ALONE(width), POOL_STEPS_ALONE_QUEUE_PUT(width),
               POOL_STEPS_ALONE_QUEUE_TAKE(width), POOL_STEPS_ALONE_STACK(width));
    }

    pool_make(words, LENT, POOL_QUEUE, WIDTH, 1, 1, ROWS, 2, 0, fields);
    /* This stands for a long search. A program reads the word, and does not write it. */
    words[POOL_STEPS_AT] = POOL_STEP_LIMIT - TO_DRAIN - 50u;

    /* Every third operation of the search is a take. */
    uint32_t number = POOL_PUT, begun = 0;
    while (pool_steps_left(words) > TO_DRAIN) {
        if (POOL_FINAL(number) && ++begun % 3 == 0) {
            pool_begin_take(words, LENT, 0, fields);
        } else if (POOL_FINAL(number)) {
            pool_begin_put(words, LENT, 0, 10 * begun, fields);
        }
        number = pool_step(words, LENT, 0, fields);
    }
    printf("stopped %s with %u steps left\n", POOL_FINAL(number) ? "after an answer" : "in an operation", pool_steps_left(words));

    do {
        pool_begin_take(words, LENT, 1, fields);
        uint32_t used = alone(POOL_STEPS_ALONE_QUEUE_TAKE(WIDTH), &number);
        printf("%u %u %u: %u steps\n", number, fields[POOL_VALUE], fields[POOL_DISTANCE], used);
    } while (number == POOL_TAKEN);
    printf("drained, %u steps used, %u left\n", pool_steps_used(words), pool_steps_left(words));

    /* A pool that is not drained in time: worker 0 goes on until it is refused. */
    while (!POOL_REFUSED(number)) {
        number = pool_step(words, LENT, 0, fields);
        if (number == POOL_IDLE) { number = pool_begin_take(words, LENT, 0, fields); }
    }
    printf("%u with %u steps left\n", number, pool_steps_left(words));
    return 0;
}
