/*
 * What the header says of a pool before it is made. Prints for some settings (kind, width, depth, shift, rows, workers) the words needed, how many
 * items a take may pass over (paper 01's bound and the closest), the fewest items held at "full", the steps to reserve for a drain, and those to an
 * answer, which a queue alone has; then which answers end an operation, and which refuse the call.
 */
#include "pool.h"
#include <stdio.h>

static const struct {
    uint32_t kind, width, depth, shift, rows, workers;
} pools[] = {
    {POOL_QUEUE, 1, 1, 1, 2, 1},    {POOL_QUEUE, 3, 2, 2, 4, 3},    {POOL_QUEUE, 3, 2, 2, 5, 3},       {POOL_QUEUE, 2, 4, 4, 100, 2},
    {POOL_QUEUE, 16, 64, 64, 256, 32}, {POOL_STACK, 1, 1, 1, 2, 1},
    {POOL_STACK, 2, 1, 1, 2, 2},    {POOL_STACK, 2, 1, 1, 3, 2},    {POOL_STACK, 2, 2, 1, 4, 2},       {POOL_STACK, 2, 2, 1, 5, 2},
    {POOL_STACK, 2, 2, 2, 6, 3},    {POOL_STACK, 3, 6, 4, 100, 4},  {POOL_STACK, 16, 64, 1, 256, 32},
};

int main(void) {
    static uint32_t words[POOL_MAX_WORDS], fields[POOL_FIELDS];
    for (size_t at = 0; at < sizeof pools / sizeof pools[0]; at++) {
        uint32_t kind = pools[at].kind, w = pools[at].width, d = pools[at].depth, s = pools[at].shift, rows = pools[at].rows,
                 n = pools[at].workers, needed = POOL_WORDS(w, rows, n);
        printf("%s %u %u %u %u %u: %u words, passes over %u, closest %u, full from %u, drained in %u steps", kind == POOL_QUEUE ? "queue" : "stack", w,
               d, s, rows, n, needed, POOL_BOUND(kind, w, d, s), POOL_BOUND_CLOSEST(kind, w, d, s, rows), POOL_LEAST_FULL(kind, w, d, s, rows),
               POOL_STEPS_TO_DRAIN(w, w * rows));
        if (kind == POOL_QUEUE) {
            printf(", an answer in %u, closest %u", POOL_STEPS_TO_ANSWER(w, n), POOL_STEPS_TO_ANSWER_CLOSEST(w, n));
        }
        /* Just the needed words are enough, and one less is not. */
        int enough = pool_make(words, needed, kind, w, d, s, rows, n, 0, fields) == POOL_MOVING;
        int less = pool_make(words, needed - 1, kind, w, d, s, rows, n, 0, fields) == POOL_TOO_FEW_WORDS;
        printf(enough && less ? "\n" : ": not so\n");
    }
    printf("at most %u words; edition %u, word %u\n", POOL_MAX_WORDS, POOL_EDITION, POOL_EDITION_AT);
    if (words[POOL_EDITION_AT] != POOL_EDITION) {
        printf("not so\n");
    }
    for (uint32_t number = 0; number <= POOL_CANNOT_MOVE; number += number == POOL_RAN_OUT ? 15 : number == POOL_STEPS_SPENT ? 4 : 1) {
        printf("%u%s%s\n", number, POOL_FINAL(number) ? " ends an operation" : "", POOL_REFUSED(number) ? " refuses the call" : "");
    }
    return 0;
}
