/*
 * A scheduler: three workers fill a queue and drain it, and the dispatcher gives them their turns. A worker whose take has found an item begins the
 * next one; the queue is drained once none is busy. Prints each final answer: its number, the worker, the value and the distance.
 */
#include "pool.h"
#include <stdio.h>

#define WIDTH 2u
#define WORKERS 3u
#define LENT POOL_WORDS(WIDTH, 4u, WORKERS)

static uint32_t words[LENT], fields[POOL_DISPATCH_FIELDS];

/* Whether there is a final answer, from the worker whose turn it is on; else the number that ended the turns is in `number`. */
static int next_answer(uint32_t *turn, uint32_t *number) {
    *number = pool_dispatch(words, LENT, *turn, POOL_STEPS_TO_ANSWER(WIDTH, WORKERS), fields);
    if (!POOL_FINAL(*number)) { return 0; }
    printf("%u: worker %u, %u at distance %u\n", *number, fields[POOL_WORKER], fields[POOL_VALUE], fields[POOL_DISTANCE]);
    *turn = (fields[POOL_WORKER] + 1) % WORKERS;
    return 1;
}

int main(void) {
    uint32_t turn = 0, number = pool_make(words, LENT, POOL_QUEUE, WIDTH, 2, 2, 4, WORKERS, 0, fields);

    for (uint32_t value = 1; value <= 2 * WORKERS; value++) {
        pool_begin_put(words, LENT, value % WORKERS, 10 * value, fields);
        if (value % WORKERS == 0) {
            while (next_answer(&turn, &number)) {}
        }
    }

    for (uint32_t worker = 0; worker < WORKERS; worker++) { pool_begin_take(words, LENT, worker, fields); }
    while (next_answer(&turn, &number)) {
        uint32_t worker = fields[POOL_WORKER];
        if (number == POOL_TAKEN) { pool_begin_take(words, LENT, worker, fields); }
    }
    printf("%s\n", number == POOL_NONE_BUSY ? "no worker is busy" : POOL_REFUSED(number) ? "refused" : "no answer");
    printf("%u steps are enough for an answer, %u at the closest\n", POOL_STEPS_TO_ANSWER(WIDTH, WORKERS),
           POOL_STEPS_TO_ANSWER_CLOSEST(WIDTH, WORKERS));
    return 0;
}
