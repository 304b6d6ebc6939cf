/*
 * The windowed pool: a queue (paper 01's line) or a stack (its pile) spread over several subs, in words that the caller lends.
 *
 * Each call works on the `len` 32-bit words at `words`, whatever they hold, and keeps nothing of its own. It returns the
 * answer's number and writes the answer's five fields (pool_dispatch: six; pool_set_size and the moves have none, and a move has two areas of words). `words`
 * and `fields` must not be NULL, nor overlap. A refusal (21 or more) leaves all lent words unchanged; where pool_dispatch meets one after some steps, as before
 * the step that was refused.
 *
 *   0   moving, made, begun, a size set, or moved
 *   1   put: the value, the sub and row that it lies in, its stamp
 *   2   taken: the value, its sub, row and stamp, and the distance
 *   3   empty: a take that found no item
 *   4   full: a put that found no room
 *   5   pool_dispatch: no worker is busy
 *   6   pool_dispatch: the count of steps ran out
 *   21  fewer words than the pool needs, or fewer than 12; or too few for it in the target of a move
 *   22  pool_make: a setting off limits
 *   23  the words are not a fit pool of this edition, or of the one moved from; or a commit that matches finds no free cell or no item
 *   24  the worker's number is not below the number of workers
 *   25  begin: the worker is busy
 *   26  pool_step: the worker is idle
 *   27  begin or a step: the step count is 4,000,000,000 or more
 *   31  the moves: the source is not of the edition that is moved from
 *   32  pool_set_size: a size off limits, or a stack
 *   33  pool_move_1_to_2, pool_move_2_to_1: a pool that can't be moved
 *
 * 28 to 30 are the run lister's. Nothing here locks: one call at a time on the same words.
 *
 * What is said of a pool below, its figures and its end, is said of one from pool_make that these calls alone have changed. The macros are
 * for settings within limits; they may evaluate an argument more than once.
 */
#ifndef POOL_H
#define POOL_H

#include <stddef.h>
#include <stdint.h>

#ifdef __cplusplus
extern "C" {
#endif

#define POOL_QUEUE 0u
#define POOL_STACK 1u

/* The answers' numbers. */
#define POOL_MOVING 0u
#define POOL_PUT 1u
#define POOL_TAKEN 2u
#define POOL_EMPTY 3u
#define POOL_FULL 4u
#define POOL_NONE_BUSY 5u
#define POOL_RAN_OUT 6u
#define POOL_TOO_FEW_WORDS 21u
#define POOL_OFF_LIMITS 22u
#define POOL_NOT_FIT 23u
#define POOL_NO_SUCH_WORKER 24u
#define POOL_BUSY 25u
#define POOL_IDLE 26u
#define POOL_STEPS_SPENT 27u
#define POOL_WRONG_EDITION 31u
#define POOL_OFF_SIZE 32u
#define POOL_CANNOT_MOVE 33u

/* An answer 1 to 4 ends its operation, one of 21 or more refuses the call; 0, 5 and 6 are neither. */
#define POOL_FINAL(number) ((number)-1u < 4u)
#define POOL_REFUSED(number) ((number) >= 21u)

/* The fields, by their place; each is 0 unless the answer names it. */
#define POOL_VALUE 0     /* the value put or taken */
#define POOL_SUB 1       /* the sub that it lies or lay in, from 0 */
#define POOL_ROW 2       /* its row there, from 1 */
#define POOL_STAMP 3     /* the number of its put, from 1 */
#define POOL_DISTANCE 4  /* 2 only: held items with a value other than 0 that the take passed over, older (queue) or newer (stack) */
#define POOL_FIELDS 5

/* The value of a spacer. */
#define POOL_SPACER 0u

/* pool_dispatch has a sixth: the worker that finished (1 to 4), or the one whose turn is next (6). */
#define POOL_WORKER 5
#define POOL_DISPATCH_FIELDS 6

/*
 * How many words a pool needs, and the most that one can need: the head, two a sub, eleven a worker, two a cell, and 36 behind the cells, of a queue's
 * windows (in a stack they are 0).
 */
#define POOL_HEAD_WORDS 12u
#define POOL_WORKER_WORDS 11u
#define POOL_WINDOWS_WORDS 36u
#define POOL_WORDS(width, rows, workers)                                                                                                    \
    (POOL_HEAD_WORDS + 2u * (width) + POOL_WORKER_WORDS * (workers) + 2u * (width) * (rows) + POOL_WINDOWS_WORDS)
#define POOL_MAX_WORDS POOL_WORDS(16u, 256u, 32u)

/*
 * The edition of these calls. pool_make writes it to word 11, and words with another number there are not a fit pool, 23. Pools of edition 1 have nine
 * words a worker and none behind the cells, in pools of edition 0, made before there were editions, a worker has eight; the moves below lead from one
 * edition to the next and back. POOL_MAX_WORDS are enough for every pool of each.
 */
#define POOL_EDITION 2u
#define POOL_EDITION_AT 11 /* the word that holds the edition */
#define POOL_WORDS_1(width, rows, workers) (POOL_HEAD_WORDS + 2u * (width) + 9u * (workers) + 2u * (width) * (rows))
#define POOL_WORDS_0(width, rows, workers) (POOL_HEAD_WORDS + 2u * (width) + 8u * (workers) + 2u * (width) * (rows))

/*
 * A worker's card: how many of its commits have failed since pool_make, because another worker's came first at the same sub. A begin and a final
 * answer leave it. It counts modulo 2^32, which no pool from pool_make lives to see. A move from edition 0 sets it to 0, and each failed commit from
 * then on adds one; a move between editions 1 and 2 keeps it. Proved: crates/rules/specs/Collisions.antt, crates/turnaround/specs/Turnaround.antt. Which
 * stride has the fewest is in docs/STRIDES.md.
 */
#define POOL_LOST(words, width, worker) (+(words)[POOL_HEAD_WORDS + 2u * (width) + POOL_WORKER_WORDS * (worker) + 8u])

/*
 * How many items a take may pass over, older ones (queue) or newer ones (stack), spacers among them: no distance is above it, as a distance
 * counts the others alone. In a queue it goes by the size of the window that the take is from: the pool's width and depth, or those set by
 * pool_set_size, which may be given here instead. No take passes over more than the greatest of the pool's and of all that were set. The first is paper
 * 01's. The second is closer for a stack, and exact: with two workers or more some run comes to it. Proved: crates/rules/specs/Statement.antt,
 * Consequences.antt, Newer.antt, Spacers.antt; crates/reached/specs/Reached.antt.
 */
#define POOL_BOUND(kind, width, depth, shift)                                                                                               \
    (((width)-1u) * ((kind) == POOL_QUEUE ? 1u * (depth) : 2u * (depth) + 2u * (shift)))
#define POOL_BOUND_CLOSEST(kind, width, depth, shift, rows)                                                                                 \
    (((width)-1u) * ((kind) == POOL_QUEUE                                                                                                   \
                         ? 1u * (depth)                                                                                                     \
                         : (depth) + (shift) * (((depth)-1u) / (shift) + 2u < ((rows)-1u * (depth)) / (shift)                               \
                                                    ? ((depth)-1u) / (shift) + 2u                                                           \
                                                    : ((rows)-1u * (depth)) / (shift))))

/*
 * How many items are held at the least, at one of its steps, where a put answers 4; of a queue in which no size was set. A queue has at most 16 windows at
 * a time, from the take window to the put window, and no more than its rows have room for; at a 4 all but the first of them are full. With sizes set
 * they are full too: the items are at least the widths times the depths of the windows after the take window. Proved: crates/rules/specs/Statement.antt, Full.antt.
 */
#define POOL_MOST_LIVE 16u
#define POOL_LEAST_FULL(kind, width, depth, shift, rows)                                                                                    \
    ((width) * ((kind) == POOL_QUEUE                                                                                                        \
                    ? 1u * (depth) * (((rows) / (depth) < POOL_MOST_LIVE ? (rows) / (depth) : POOL_MOST_LIVE) - 1u)                         \
                    : (rows)-1u * (shift) + 1u))

/*
 * How many steps to reserve for an operation whose worker alone steps from its begin on, wherever the others have stopped, in a pool
 * from pool_make: with so many left in the step count none of its steps is refused, and the last of them at the latest answers 1 to 4.
 * The first is enough for every operation; the others are the closest by kind and side. Proved: crates/solo/specs/Solo.antt.
 */
#define POOL_STEPS_ALONE(width) (3u * (width) + 8u)
#define POOL_STEPS_ALONE_QUEUE_PUT(width) ((width) + 5u)
#define POOL_STEPS_ALONE_QUEUE_TAKE(width) (3u * (width) + 3u)
#define POOL_STEPS_ALONE_STACK(width) ((width) < 4u ? 2u * (width) + 8u : 3u * (width) + 4u)

/*
 * The end of a pool's life: once it has taken so many steps, begins and steps answer 27, for good, and what the pool holds can't be taken any
 * more. At full speed that is a matter of minutes. The two functions read a pool's words: the steps that it has taken, and those that it has
 * left. Begins and refused calls count none.
 *
 * To drain a pool in time, keep a worker idle. While POOL_STEPS_TO_DRAIN(width, items) steps are left, for the items held or more (they are at
 * most width * rows), stop all others wherever they are, and let that worker take until it is answered 3: each take ends within
 * POOL_STEPS_ALONE(width) steps, and after the 3 the pool holds nothing. The value of a put that was stopped is not in the pool.
 * examples/drain.c does it.
 */
#define POOL_STEP_LIMIT 4000000000u
#define POOL_STEPS_AT 6 /* the word that counts the steps taken */
#define POOL_STEPS_TO_DRAIN(width, items) (((items) + 1u) * POOL_STEPS_ALONE(width))

static inline uint32_t pool_steps_used(const uint32_t *words) { return words[POOL_STEPS_AT]; }

static inline uint32_t pool_steps_left(const uint32_t *words) {
    uint32_t used = pool_steps_used(words);
    return used < POOL_STEP_LIMIT ? POOL_STEP_LIMIT - used : 0u;
}

/*
 * Of so many steps in a row that are not refused, on a queue from pool_make, by any workers in any order and with begins between them, at least
 * one answers 1 to 4. So a pool_dispatch with this count finishes an operation of such a queue, where a worker is busy and the step count has as
 * many left. The second is the closest. A stack has no such number: where its shift is its depth, two workers can move its window up and down
 * as long as the step count lets them (examples/runs, stack-endless). Proved: crates/stretch/specs/Stretch.antt.
 */
#define POOL_STEPS_TO_ANSWER(width, workers) (6u * (workers) * ((width) + 1u) + 1u)
#define POOL_STEPS_TO_ANSWER_CLOSEST(width, workers)                                                                                        \
    ((workers) == 1u ? 2u * (width) + 4u                                                                                                   \
                     : ((workers)-1u) * ((width) < 2u ? 4u * (width) + 3u : 5u * (width) + 1u) + (width) + 5u)

/*
 * Makes a new pool in the lent words. Limits: kind 0 or 1, width 1 to 16, depth 1 to 64, shift 1 to depth (a queue has
 * shift = depth), rows from 2 * depth to 1,024, workers 1 to 32, width * rows at most 4,096,
 * stride 0 to width - 1. A worker whose commit failed, since another one's came first, goes on at the sub that is the stride
 * further, modulo width; 0 stands for 1, the next sub. No figure above depends on the stride; how many commits fail does (POOL_LOST).
 * Words beyond the needed ones are not touched, by this call or any other.
 */
uint32_t pool_make(uint32_t *words, size_t len, uint32_t kind, uint32_t width, uint32_t depth, uint32_t shift, uint32_t rows,
                   uint32_t workers, uint32_t stride, uint32_t fields[POOL_FIELDS]);

/*
 * Begins a put of a value by an idle worker; pool_step then carries it on. A value of 0 is a spacer: it is put, held and taken like any other item,
 * and counts where items held are counted, but no distance counts it. Its own take has a distance like every other's.
 */
uint32_t pool_begin_put(uint32_t *words, size_t len, uint32_t worker, uint32_t value, uint32_t fields[POOL_FIELDS]);

/* Begins a take by an idle worker. */
uint32_t pool_begin_take(uint32_t *words, size_t len, uint32_t worker, uint32_t fields[POOL_FIELDS]);

/* One step of a busy worker; an answer 1 to 4 ends its operation. */
uint32_t pool_step(uint32_t *words, size_t len, uint32_t worker, uint32_t fields[POOL_FIELDS]);

/*
 * Steps the busy workers round and round by number, from `worker` on, up to `steps` steps, and stops at the first answer 1 to 4: it returns that
 * answer with its five fields and, as the sixth, the worker. 21, 23 for words that are not a fit pool and 24 come first, whatever the count and whoever
 * is busy; then 5 where no worker is busy, also with a count of 0. 6 where the count ran out: the sixth field is then the worker whose turn is next,
 * the one after the last worker stepped (with a count of 0 the named one), and a call from there goes on as one with a greater count would have. The
 * refusal of a step (23 of a commit, 27) comes only where a step would be made; the steps made before it stand. All six fields are zero with a 5 and
 * with a refusal. The words are checked once, and not at every step.
 */
uint32_t pool_dispatch(uint32_t *words, size_t len, uint32_t worker, uint32_t steps, uint32_t fields[POOL_DISPATCH_FIELDS]);

/*
 * Sets the size of a queue's put windows from the next one on: how many subs they go over, from sub 0, and how many rows deep they are. Until then it is the
 * pool's. Windows that are there already keep theirs, so the takes come to the new size once they are through those. A narrow window gives back its items
 * closer to their order, POOL_BOUND(POOL_QUEUE, width, depth, depth) of this size at the most, at the price of more failed commits and more shifts:
 * docs/NARROWING.md. Width 1 to the pool's, depth 1 to 64 and at most half of the rows; 32 for another size and for a stack. It is no step: it counts none,
 * and is answered 0 where the step count is used up. Proved: crates/sizes/specs/NextSize.antt.
 */
uint32_t pool_set_size(uint32_t *words, size_t len, uint32_t width, uint32_t depth);

/*
 * At a turnaround: moves the saved pool at `from` into the words at `to`, from one edition to the next or back. The source is only read, and the two areas
 * must not be NULL, nor overlap. Where the answer is 0 the pool lies in the target's first words, POOL_WORDS, POOL_WORDS_1 or POOL_WORDS_0 of them,
 * whatever they held, and those behind them are not touched. From 0 to 1 the workers' cards are 0; from 1 to 2 a queue's windows get the pool's size; all
 * else but word 11 is kept, and backward what the older edition does not have is dropped. From 1 to 0 to 1 gives the same words but for the cards, from 1 to
 * 2 to 1 the same words.
 *
 * The refusals come in this order: 21 for fewer than 12 words, 23 for settings off limits, 31 for the edition, 21 for fewer words than a pool of that edition
 * needs, 23 for one that is not fit, 33 for one that can't be moved, all of the source; then 21 for too short a target. From 1 to 2 a 33 is for a queue
 * with more than 16 windows from its take window to its put window, and for some that pool_make and these calls do not come to. From 2 to 1 it is for
 * every pool in which a size was set, and for a queue whose rows are not a multiple of its depth.
 *
 * Operations under way go on, in whichever phase they are, and one order of all operations explains the answers before and after; so what is said here of
 * the items of a pool from pool_make is so of one that was moved, any number of times. Editions 0 and 1 answer the same later begins and steps alike. Edition 2
 * may not: it has 16 windows at the most, and answers 3 only where the put window is still the one that the take saw. Proved:
 * crates/turnaround/specs/Turnaround.antt, and of a dispatch crates/stretch/specs/Stretch.antt.
 */
uint32_t pool_move_0_to_1(const uint32_t *from, size_t from_len, uint32_t *to, size_t to_len);
uint32_t pool_move_1_to_0(const uint32_t *from, size_t from_len, uint32_t *to, size_t to_len);
uint32_t pool_move_1_to_2(const uint32_t *from, size_t from_len, uint32_t *to, size_t to_len);
uint32_t pool_move_2_to_1(const uint32_t *from, size_t from_len, uint32_t *to, size_t to_len);

#ifdef __cplusplus
}
#endif

#endif
