/*
 * Two archives of the library beside each other in one process: time per call, before / after, on the same operations and equal words. Built by
 * beside.sh, which gives each archive's functions a prefix of their own. A round makes OPERATIONS puts, each followed by a take, with one archive and then
 * with the other; the order changes from round to round. Each number is the median of the rounds, and a ratio the median of the rounds' ratios.
 * The second archive, of edition 2, makes the pools of both, so that the first may be one whose make has no stride. Where the first refuses such a pool, it
 * gets the same pool in edition 1, and where it refuses that too, in edition 0. No value is 0, so that the first may be one that counts spacers in a distance
 * too, and no queue has more than 16 windows: the answers of both are compared, and the words, of an earlier edition all that it has.
 */
#include "pool.h"
#include <stdio.h>
#include <stdlib.h>
#include <string.h>
#include <time.h>

#define ROUNDS 41
#define OPERATIONS 200
#define DEPTH 4u
#define ROWS 64u

#define WORKERS_AT(width) (POOL_HEAD_WORDS + 2u * (width))

uint32_t after_make(uint32_t *, size_t, uint32_t, uint32_t, uint32_t, uint32_t, uint32_t, uint32_t, uint32_t, uint32_t *);
#define LIBRARY(name)                                                                                                                      \
    uint32_t name##_begin_put(uint32_t *, size_t, uint32_t, uint32_t, uint32_t *);                                                         \
    uint32_t name##_begin_take(uint32_t *, size_t, uint32_t, uint32_t *);                                                                  \
    uint32_t name##_step(uint32_t *, size_t, uint32_t, uint32_t *);
LIBRARY(before)
LIBRARY(after)

typedef struct {
    uint32_t (*begin_put)(uint32_t *, size_t, uint32_t, uint32_t, uint32_t *);
    uint32_t (*begin_take)(uint32_t *, size_t, uint32_t, uint32_t *);
    uint32_t (*step)(uint32_t *, size_t, uint32_t, uint32_t *);
} Library;

static const Library libraries[2] = {{before_begin_put, before_begin_take, before_step}, {after_begin_put, after_begin_take, after_step}};

static uint32_t words[2][POOL_MAX_WORDS], fields[POOL_FIELDS], answers[2];

static double nanoseconds(void) {
    struct timespec now;
    clock_gettime(CLOCK_MONOTONIC, &now);
    return 1e9 * (double)now.tv_sec + (double)now.tv_nsec;
}

/* The calls of an operation, from its begin to its answer. */
static uint32_t put(const Library *library, uint32_t *pool, size_t len, uint32_t worker, uint32_t value) {
    uint32_t calls = 2;
    library->begin_put(pool, len, worker, value, fields);
    while (library->step(pool, len, worker, fields) == POOL_MOVING) { calls++; }
    return calls;
}

static uint32_t take(const Library *library, uint32_t *pool, size_t len, uint32_t worker) {
    uint32_t calls = 2;
    library->begin_take(pool, len, worker, fields);
    while (library->step(pool, len, worker, fields) == POOL_MOVING) { calls++; }
    return calls;
}

/* Whether the words are a fit pool of this archive's edition: it then refuses the worker that is not there. */
static int fits(const Library *library, uint32_t *pool, size_t len, uint32_t workers) {
    return library->step(pool, len, workers, fields) == POOL_NO_SUCH_WORKER;
}

/* Makes a pool one of edition 0 or 1, which have the first eight or nine words of a worker and none behind the cells; its number of words. */
static size_t moved_back(uint32_t *pool, size_t len, uint32_t width, uint32_t workers, uint32_t edition) {
    size_t start = WORKERS_AT(width), end = start + (size_t)workers * POOL_WORKER_WORDS, to = start;
    for (size_t from = start; from < len - POOL_WINDOWS_WORDS; from++) {
        if (from >= end || (from - start) % POOL_WORKER_WORDS < 8 + edition) { pool[to++] = pool[from]; }
    }
    pool[POOL_EDITION_AT] = edition;
    return to;
}

/* A sum over all fields of all takes' answers, in which each place counts otherwise. */
static uint32_t with_answer(uint32_t sum) {
    for (int at = 0; at < POOL_FIELDS; at++) { sum = 31 * sum + fields[at]; }
    return sum;
}

/* Time per call of a round's puts and of its takes. */
static void measured(const Library *library, uint32_t *pool, size_t len, uint32_t workers, double *puts, double *takes, uint32_t *answered) {
    double put_time = 0, take_time = 0;
    uint32_t put_calls = 0, take_calls = 0;
    for (uint32_t at = 0; at < OPERATIONS; at++) {
        double start = nanoseconds();
        put_calls += put(library, pool, len, at % workers, at + 1);
        double between = nanoseconds();
        take_calls += take(library, pool, len, at % workers);
        put_time += between - start;
        take_time += nanoseconds() - between;
        *answered = with_answer(*answered);
    }
    *puts = put_time / put_calls;
    *takes = take_time / take_calls;
}

static int rising(const void *a, const void *b) {
    double x = *(const double *)a, y = *(const double *)b;
    return x < y ? -1 : x > y;
}

static double median(const double *numbers, int count) {
    double sorted[1024];
    memcpy(sorted, numbers, sizeof(double) * (size_t)count);
    qsort(sorted, (size_t)count, sizeof(double), rising);
    return sorted[count / 2];
}

/* Prints a cell; its ratio. */
static double cell(double times[2][ROUNDS]) {
    double ratios[ROUNDS];
    for (int at = 0; at < ROUNDS; at++) { ratios[at] = times[1][at] / times[0][at]; }
    printf(" %.1f / %.1f = %.3f |", median(times[0], ROUNDS), median(times[1], ROUNDS), median(ratios, ROUNDS));
    return median(ratios, ROUNDS);
}

int main(void) {
    static const uint32_t widths[] = {2, 4, 8, 16}, crews[] = {2, 8, 32};
    static double puts[2][ROUNDS], takes[2][ROUNDS], all[2][2][64];
    int rows[2] = {0, 0};
    printf("Nanoseconds per call, before / after = ratio of the rounds.\n\n| kind | w | n | held | put | take |\n|---|---:|---:|---:|---:|---:|\n");
    for (uint32_t kind = POOL_QUEUE; kind <= POOL_STACK; kind++) {
        for (int row = 0; row < 36; row++) {
            uint32_t width = widths[row / 9], workers = crews[row / 3 % 3], shift = kind == POOL_QUEUE ? DEPTH : DEPTH / 2;
            uint32_t held = row % 3 == 0 ? 0 : row % 3 == 1 ? width * ROWS / 2 : width * (ROWS - 2 * DEPTH);
            size_t len[2] = {POOL_WORDS(width, ROWS, workers), POOL_WORDS(width, ROWS, workers)};
            for (int side = 0; side < 2; side++) { after_make(words[side], len[side], kind, width, DEPTH, shift, ROWS, workers, 0, fields); }
            uint32_t edition = POOL_EDITION;
            while (!fits(&libraries[0], words[0], len[0], workers) && edition > 0) {
                memcpy(words[0], words[1], 4 * len[1]);
                len[0] = moved_back(words[0], len[1], width, workers, --edition);
            }
            for (int side = 0; side < 2; side++) {
                if (!fits(&libraries[side], words[side], len[side], workers)) {
                    fprintf(stderr, "an archive refuses its pool\n");
                    return 1;
                }
                for (uint32_t at = 0; at < held; at++) { put(&libraries[side], words[side], len[side], at % workers, at + 1); }
            }
            for (int round = 0; round < ROUNDS; round++) {
                for (int turn = 0; turn < 2; turn++) {
                    int side = (round + turn) % 2;
                    measured(&libraries[side], words[side], len[side], workers, &puts[side][round], &takes[side][round], &answers[side]);
                }
            }
            if (edition < POOL_EDITION) { moved_back(words[1], len[1], width, workers, edition); }
            if (memcmp(words[0], words[1], 4 * len[0]) != 0 || answers[0] != answers[1]) {
                fprintf(stderr, "the words or the answers differ\n");
                return 1;
            }
            printf("| %s | %u | %u | %u |", kind == POOL_QUEUE ? "queue" : "stack", width, workers, held);
            all[kind][0][rows[kind]] = cell(puts);
            all[kind][1][rows[kind]++] = cell(takes);
            printf("\n");
        }
    }
    printf("\nMedian ratios: queue put %.3f, queue take %.3f, stack put %.3f, stack take %.3f\n", median(all[0][0], rows[0]),
           median(all[0][1], rows[0]), median(all[1][0], rows[1]), median(all[1][1], rows[1]));
    return 0;
}
