/*
 * A pool that is moved from an old box goes on as it would have there. The old box is an archive of the library from before editions, and the one that it
 * is moved to an archive of edition 1; old_box.sh gives the functions of each a prefix of their own. The moves are those of this library.
 *
 * Two pools get the same calls: one stays, with the old library, and is never moved; the other travels between the editions, and is called by the
 * library of the edition that it has come to. All answers and fields must be equal, and all words but the cards, which may hold anything. Whether a
 * source is fit to be moved is asked of the old library too. A pass fails unless workers in every phase were moved, both ways, and every answer was
 * given after a move. Called as: old_box SEED SECONDS.
 */
#include "pool.h"
#include <stdarg.h>
#include <stdio.h>
#include <stdlib.h>
#include <string.h>
#include <time.h>

#define LIBRARY(name)                                                                                                                       \
    uint32_t name##_pool_make(uint32_t *, size_t, uint32_t, uint32_t, uint32_t, uint32_t, uint32_t, uint32_t, uint32_t, uint32_t *);       \
    uint32_t name##_pool_begin_put(uint32_t *, size_t, uint32_t, uint32_t, uint32_t *);                                                    \
    uint32_t name##_pool_begin_take(uint32_t *, size_t, uint32_t, uint32_t *);                                                             \
    uint32_t name##_pool_step(uint32_t *, size_t, uint32_t, uint32_t *);                                                                   \
    uint32_t name##_pool_dispatch(uint32_t *, size_t, uint32_t, uint32_t, uint32_t *);
LIBRARY(old)
LIBRARY(one)

typedef struct {
    uint32_t (*make)(uint32_t *, size_t, uint32_t, uint32_t, uint32_t, uint32_t, uint32_t, uint32_t, uint32_t, uint32_t *);
    uint32_t (*begin_put)(uint32_t *, size_t, uint32_t, uint32_t, uint32_t *);
    uint32_t (*begin_take)(uint32_t *, size_t, uint32_t, uint32_t *);
    uint32_t (*step)(uint32_t *, size_t, uint32_t, uint32_t *);
    uint32_t (*dispatch)(uint32_t *, size_t, uint32_t, uint32_t, uint32_t *);
    uint32_t (*move_on)(const uint32_t *, size_t, uint32_t *, size_t); /* to the other edition */
} Library;

/* By edition. Both moves are this library's. */
static const Library libraries[2] = {
    {old_pool_make, old_pool_begin_put, old_pool_begin_take, old_pool_step, old_pool_dispatch, pool_move_0_to_1},
    {one_pool_make, one_pool_begin_put, one_pool_begin_take, one_pool_step, one_pool_dispatch, pool_move_1_to_0},
};
static const char *const moves[2] = {"pool_move_0_to_1", "pool_move_1_to_0"};
static const char *const kinds[2] = {"queue", "stack"};

/* Paper 01's words. */
enum { KIND, WIDTH, DEPTH, SHIFT, ROWS, WORKERS, STEPS, PUTS, WINDOW, SECOND, STRIDE, EDITION, HEAD };
enum { PHASE, VALUE, INDEX, SEEN_WINDOW, EXTRA, SCAN, SEEN, SUM, WORKER_0 };
enum { PHASES = 16 };
static const uint32_t has_phase[2][PHASES] = {
    {1, 1, 1, 0, 1, 1, 0, 0, 0, 1, 1, 0, 1, 1, 1, 0}, /* a queue has no check, and its puts no confirm */
    {1, 1, 1, 1, 1, 1, 1, 0, 0, 1, 1, 1, 1, 1, 1, 0},
};

/* Lent words: `len` of them are lent, and up to BEYOND after the needed ones are compared too. */
enum { BEYOND = 16, AREA_WORDS = (int)POOL_MAX_WORDS + BEYOND };
typedef struct {
    uint32_t words[AREA_WORDS];
    size_t len, used;
} Area;

static size_t needed(const uint32_t *words, uint32_t in_edition) {
    uint32_t width = words[WIDTH], rows = words[ROWS], workers = words[WORKERS];
    return in_edition == 0 ? POOL_WORDS_0(width, rows, workers) : POOL_WORDS_1(width, rows, workers);
}

static size_t worker_at(const uint32_t *words, uint32_t in_edition, uint32_t worker) {
    return HEAD + 2 * words[WIDTH] + (WORKER_0 + in_edition) * worker;
}

static size_t cells_at(const uint32_t *words, uint32_t in_edition) { return worker_at(words, in_edition, words[WORKERS]); }

/* The pool of one edition laid out in another: a worker's first eight words are kept, a ninth is 0. */
static void lay_out(const uint32_t *from, uint32_t of_edition, uint32_t *to, uint32_t in_edition) {
    uint32_t worker;
    memcpy(to, from, worker_at(from, 0, 0) * sizeof *to);
    to[EDITION] = in_edition;
    for (worker = 0; worker < from[WORKERS]; worker++) {
        uint32_t *at = to + worker_at(from, in_edition, worker);
        memcpy(at, from + worker_at(from, of_edition, worker), WORKER_0 * sizeof *to);
        if (in_edition == 1) { at[WORKER_0] = 0; }
    }
    memcpy(to + cells_at(from, in_edition), from + cells_at(from, of_edition), 2 * (size_t)from[WIDTH] * from[ROWS] * sizeof *to);
}

/* Random numbers; each case has its own, by the seed and its number. */
static uint64_t random_state;

static uint32_t any(void) {
    uint64_t z = random_state += 0x9E3779B97F4A7C15u;
    z = (z ^ z >> 30) * 0xBF58476D1CE4E5B9u;
    z = (z ^ z >> 27) * 0x94D049BB133111EBu;
    return (uint32_t)(z >> 32);
}

static uint32_t below(uint32_t n) { return (uint32_t)((uint64_t)any() * n >> 32); }
static uint32_t one_in(uint32_t n) { return below(n) == 0; }
static uint32_t from_to(uint32_t least, uint32_t most) { return least + below(most - least + 1); }

static uint32_t junk(void) {
    switch (below(5)) {
    case 0: return 0;
    case 1: return below(8);
    case 2: return below(1100);
    case 3: return UINT32_MAX - below(4);
    default: return any();
    }
}

/* The case that runs, and what has been met. */
static uint32_t seed, kind, from_make, has_moved, edition; /* the last one of the pool that travels */
static Area stays, areas[2], *travels = &areas[0], *other = &areas[1];
static unsigned long cases, calls_made, peeks, moves_made[2], refused[2][32], short_target[2];
static unsigned long phases_met[2][2][2][PHASES]; /* from make or not, edition moved from, kind */
static unsigned long answers_met[2][2][4][32];    /* edition, kind, call */
static unsigned char strides_met[2][17][16];      /* kind, width, stride */

static void print_words(const char *name, const uint32_t *words, size_t len) {
    size_t i;
    printf("%s, %zu words:", name, len);
    for (i = 0; i < len; i++) { printf(" %u", words[i]); }
    printf("\n");
}

static void fail(const char *format, ...) {
    va_list rest;
    printf("seed %u, case %lu, a %s %s: ", seed, cases, kinds[kind], from_make ? "from make" : "as an image");
    va_start(rest, format);
    vprintf(format, rest);
    va_end(rest);
    printf("\n");
    exit(1);
}

static void fill(Area *area, size_t used) {
    size_t i;
    area->used = used;
    for (i = 0; i < used; i++) { area->words[i] = any(); }
}

/* Words for a pool of these settings, all of them old ones; as many lent as needed, or a few more. */
static void lend(Area *area, const uint32_t *head, uint32_t in_edition) {
    fill(area, needed(head, 1) + BEYOND);
    area->len = needed(head, in_edition) + (one_in(2) ? 0 : below(BEYOND));
}

static const char *word_name(const uint32_t *words, size_t at) {
    static const char *const worker_words[WORKER_0] = {"phase", "value", "index", "seen window", "extra", "scan", "seen", "sum"};
    static char name[80];
    size_t workers = worker_at(words, 0, 0), worker = (at - workers) / WORKER_0;
    if (at < HEAD) {
        return "of the head";
    } else if (at < workers) {
        snprintf(name, sizeof name, "of sub %zu", (at - HEAD) / 2);
    } else if (at < cells_at(words, 0)) {
        snprintf(name, sizeof name, "worker %zu's %s", worker, worker_words[(at - workers) % WORKER_0]);
    } else {
        snprintf(name, sizeof name, "of cell %zu", (at - cells_at(words, 0)) / 2);
    }
    return name;
}

/* The words that stay, and those of edition 0 that should be the same. */
static void compare(const uint32_t *words, const char *after, const uint32_t *before) {
    size_t i, len = needed(stays.words, 0);
    if (memcmp(words, stays.words, len * sizeof *words) == 0) { return; }
    print_words("before", before, len);
    print_words("the one that stays", stays.words, len);
    print_words("the one that travels, in edition 0", words, len);
    for (i = 0; words[i] == stays.words[i]; i++) {}
    fail("after %s word %zu (%s) is %u, and %u in the pool that travels, in edition %u", after, i, word_name(stays.words, i), stays.words[i],
         words[i], edition);
}

static void compare_pools(const char *after, const uint32_t *before) {
    static uint32_t as_0[AREA_WORDS];
    if (memcmp(travels->words, stays.words, EDITION * sizeof *as_0) != 0) { compare(travels->words, after, before); }
    if (travels->words[EDITION] != edition) { fail("after %s word 11 is %u in the pool that travels", after, travels->words[EDITION]); }
    lay_out(travels->words, edition, as_0, 0);
    compare(as_0, after, before);
}

/* What the old library says of the words: 21, 23, or 24 of a fit pool, as no worker has that number. */
static uint32_t old_verdict(uint32_t *words, size_t len) {
    uint32_t fields[POOL_FIELDS];
    return old_pool_step(words, len, UINT32_MAX, fields);
}

/* The number that a move's source gives: the old library's for the settings alone, 31 for the edition, and again the old library's; or 24. */
static uint32_t source_verdict(Area *from, uint32_t of_edition) {
    static uint32_t as_0[AREA_WORDS];
    if (from->len < HEAD) { return old_verdict(from->words, from->len); }
    memcpy(as_0, from->words, HEAD * sizeof *as_0);
    as_0[EDITION] = 0;
    if (old_verdict(as_0, HEAD) == POOL_NOT_FIT) { return POOL_NOT_FIT; }
    if (from->words[EDITION] != of_edition) { return POOL_WRONG_EDITION; }
    if (of_edition == 0) { return old_verdict(from->words, from->len); }
    if (from->len < needed(from->words, 1)) { return POOL_TOO_FEW_WORDS; }
    lay_out(from->words, 1, as_0, 0);
    return old_verdict(as_0, needed(from->words, 0));
}

static void count_move(const uint32_t *words, uint32_t of_edition) {
    uint32_t worker;
    moves_made[of_edition]++;
    strides_met[words[KIND]][words[WIDTH]][words[STRIDE]] = 1;
    for (worker = 0; worker < words[WORKERS]; worker++) {
        phases_met[from_make][of_edition][words[KIND]][words[worker_at(words, of_edition, worker)] % PHASES]++;
    }
}

/* One move, with all that is said of its answer, of the source and of the target's words. */
static uint32_t checked_move(Area *from, uint32_t of_edition, Area *to) {
    static Area source, target;
    uint32_t verdict = source_verdict(from, of_edition), expected = verdict, answer;
    source = *from;
    target = *to;
    if (verdict == POOL_NO_SUCH_WORKER) { expected = to->len < needed(from->words, 1 - of_edition) ? POOL_TOO_FEW_WORDS : POOL_MOVING; }
    if (expected == POOL_MOVING) { lay_out(from->words, of_edition, target.words, 1 - of_edition); }
    answer = libraries[of_edition].move_on(from->words, from->len, to->words, to->len);
    if (answer != expected || memcmp(source.words, from->words, sizeof source.words) != 0 ||
        memcmp(target.words, to->words, sizeof target.words) != 0) {
        print_words("the source before", source.words, source.used);
        print_words("the source after", from->words, from->used);
        print_words("the target after", to->words, to->used);
        print_words("the target as it should be", target.words, target.used);
        fail("%s, lent %zu and %zu words, answers %u, where %u is expected, or words differ", moves[of_edition], from->len,
             to->len, answer, expected);
    }
    if (answer == POOL_MOVING) {
        count_move(from->words, of_edition);
    } else if (verdict == POOL_NO_SUCH_WORKER) {
        short_target[of_edition]++;
    } else {
        refused[of_edition][answer]++;
    }
    return answer;
}

/* A call of either library, and what it gives. */
enum { BEGIN_PUT, BEGIN_TAKE, STEP, DISPATCH, CALLS };
static const char *const call_names[CALLS] = {"begin put", "begin take", "step", "dispatch"};
typedef struct {
    uint32_t what, worker, number; /* the number is a put's value, or a dispatch's count */
    size_t too_few;                /* so many words less than needed are lent */
} Call;
typedef struct {
    uint32_t number, fields[POOL_DISPATCH_FIELDS];
} Given;

static Given call_of(Call call, Area *area, uint32_t in_edition) {
    const Library *library = &libraries[in_edition];
    size_t len = call.too_few == 0 ? area->len : needed(area->words, in_edition) - call.too_few;
    Given given = {0, {7, 7, 7, 7, 7, 7}};
    switch (call.what) {
    case BEGIN_PUT: given.number = library->begin_put(area->words, len, call.worker, call.number, given.fields); break;
    case BEGIN_TAKE: given.number = library->begin_take(area->words, len, call.worker, given.fields); break;
    case STEP: given.number = library->step(area->words, len, call.worker, given.fields); break;
    default: given.number = library->dispatch(area->words, len, call.worker, call.number, given.fields);
    }
    return given;
}

/* The words behind the needed ones stay. */
static void compare_beyond(const Area *area, const Area *before, uint32_t in_edition, const char *after) {
    size_t len = needed(before->words, in_edition);
    if (memcmp(area->words + len, before->words + len, (before->used - len) * sizeof *area->words) != 0) {
        fail("after %s words beyond the %zu needed ones are not as before", after, len);
    }
}

static void copy(const Area *from, Area *to) {
    memcpy(to->words, from->words, from->used * sizeof *to->words);
    to->len = from->len;
    to->used = from->used;
}

/* The same call on both pools. */
static void both(Call call) {
    static Area before[2];
    char name[120];
    Given old, new;
    snprintf(name, sizeof name, "%s (worker %u, number %u, %zu words fewer than needed)", call_names[call.what], call.worker,
             call.number, call.too_few);
    copy(&stays, &before[0]);
    copy(travels, &before[1]);
    old = call_of(call, &stays, 0);
    new = call_of(call, travels, edition);
    if (memcmp(&old, &new, sizeof old) != 0) {
        print_words("before", before[0].words, needed(before[0].words, 0));
        print_words("the fields where it stays", old.fields, POOL_DISPATCH_FIELDS);
        print_words("the fields where it travels", new.fields, POOL_DISPATCH_FIELDS);
        fail("%s answers %u, and %u in the pool that travels, in edition %u, with the fields above", name, old.number, new.number, edition);
    }
    compare_pools(name, before[0].words);
    compare_beyond(&stays, &before[0], 0, name);
    compare_beyond(travels, &before[1], edition, name);
    if (has_moved) {
        calls_made++;
        answers_met[edition][kind][call.what][old.number % 32]++;
    }
}

/* A pool from make can always be moved. An image need not stay fit: a put in a sub that has had 2^32 - 1 of them leaves fewer put than taken. */
static uint32_t moves_to(Area *to) {
    uint32_t answer = checked_move(travels, edition, to);
    if (answer != POOL_MOVING && from_make) { fail("%s answers %u", moves[edition], answer); }
    return answer == POOL_MOVING;
}

/* Now and then the pool that travels is moved back, and goes on all the same: the needed words are those of the pool that stays. */
static void peek(void) {
    static Area back;
    lend(&back, stays.words, 0);
    if (!moves_to(&back)) { return; }
    compare(back.words, "a move back", stays.words);
    peeks++;
}

static uint32_t phase_of(uint32_t worker) { return stays.words[worker_at(stays.words, 0, worker)]; }

/* A call at random: of any sort, of a number that perhaps no worker has, or lent too few words. */
static Call odd_call(void) {
    uint32_t workers = stays.words[WORKERS];
    Call call = {0, 0, 0, 0};
    call.what = below(CALLS);
    call.worker = one_in(6) ? workers + junk() % 3 : one_in(30) ? UINT32_MAX - below(3) : below(workers);
    call.number = call.what == DISPATCH ? (one_in(6) ? 0 : one_in(8) ? below(600) : from_to(1, 30)) : junk();
    call.too_few = one_in(20) ? from_to(1, one_in(2) ? 2 : (uint32_t)needed(stays.words, 0)) : 0;
    return call;
}

/* Calls on both pools: puts and takes by a share at random, workers by turns at random or in bursts. */
static void drive(uint32_t calls) {
    uint32_t puts = below(5), burst = below(4), workers = stays.words[WORKERS], worker = below(workers);
    while (calls-- > 0) {
        Call call = {STEP, 0, 0, 0};
        if (burst == 0 || one_in(1u << 2 * burst)) { worker = below(workers); }
        call.worker = worker;
        if (one_in(10)) {
            call = odd_call();
        } else if (phase_of(worker) == 0) {
            call.what = below(4) < puts ? BEGIN_PUT : BEGIN_TAKE;
            call.number = call.what == BEGIN_PUT ? (one_in(5) ? POOL_SPACER : any()) : 0;
        }
        both(call);
        if (edition == 1 && has_moved && one_in(24)) { peek(); }
    }
}

/* To the other edition, at times after a try with too short a target; the cards of a pool that has come forward may be any. */
static void travel(void) {
    Area *left = travels;
    uint32_t worker;
    lend(other, stays.words, 1 - edition);
    if (one_in(3)) {
        size_t enough = needed(stays.words, 1 - edition), len = other->len;
        other->len = one_in(2) ? enough - 1 : below((uint32_t)enough);
        checked_move(travels, edition, other);
        other->len = len;
    }
    if (!moves_to(other)) { return; }
    travels = other;
    other = left;
    edition = 1 - edition;
    has_moved = 1;
    compare_pools("a move", stays.words);
    if (edition == 1 && one_in(3)) {
        for (worker = 0; worker < stays.words[WORKERS]; worker++) {
            travels->words[worker_at(travels->words, 1, worker) + WORKER_0] = junk();
        }
    }
}

/* Settings within limits, in the places of a pool's head. Most pools are small, so that they are often full, empty, and shifted. */
static void make_up_settings(uint32_t *head) {
    uint32_t small = !one_in(8), rows, most;
    memset(head, 0, HEAD * sizeof *head);
    head[KIND] = kind = below(2);
    head[WIDTH] = small && one_in(2) ? from_to(1, 4) : from_to(1, 16);
    head[DEPTH] = small ? from_to(1, 3) : from_to(1, 64);
    head[SHIFT] = kind == POOL_QUEUE ? head[DEPTH] : from_to(1, head[DEPTH]);
    most = 4096 / head[WIDTH] < 1024 ? 4096 / head[WIDTH] : 1024;
    rows = small ? from_to(2 * head[DEPTH], 2 * head[DEPTH] + 4) : from_to(2 * head[DEPTH], most);
    head[ROWS] = kind == POOL_QUEUE ? rows - rows % head[DEPTH] : rows;
    head[WORKERS] = small ? from_to(1, 5) : from_to(1, 32);
    head[STRIDE] = below(head[WIDTH]);
}

static void make(const uint32_t *head, Area *area, uint32_t in_edition) {
    uint32_t fields[POOL_FIELDS];
    lend(area, head, in_edition);
    if (libraries[in_edition].make(area->words, area->len, head[KIND], head[WIDTH], head[DEPTH], head[SHIFT], head[ROWS], head[WORKERS],
                                   head[STRIDE], fields) != POOL_MOVING) {
        fail("make of edition %u refuses", in_edition);
    }
}

/* A worker's words, fit, and often such that it has seen what is there. */
static void make_up_worker(uint32_t *words, uint32_t *worker) {
    uint32_t i, total = 0, take, *sub;
    do { worker[PHASE] = below(PHASES); } while (!has_phase[kind][worker[PHASE]]);
    take = worker[PHASE] > 8;
    worker[VALUE] = junk();
    worker[INDEX] = below(words[WIDTH]);
    worker[SCAN] = one_in(2) ? 0 : below(words[WIDTH]);
    worker[SEEN_WINDOW] = one_in(3) ? junk() : words[kind == POOL_QUEUE && take ? SECOND : WINDOW];
    worker[EXTRA] = one_in(3) ? junk() : kind == POOL_QUEUE ? below(2) : words[SECOND];
    sub = words + HEAD + 2 * worker[INDEX];
    worker[SEEN] = one_in(3) ? junk() : sub[kind == POOL_QUEUE ? take : 1];
    for (i = 0; i < words[WIDTH]; i++) { total += words[HEAD + 2 * i + (kind == POOL_QUEUE ? 0 : 1)]; }
    worker[SUM] = one_in(2) ? junk() : total;
}

/* A fit pool of edition 0 that perhaps no calls lead to. */
static void make_up_image(const uint32_t *head, Area *area) {
    uint32_t i, *words = area->words;
    lend(area, head, 0);
    memcpy(words, head, HEAD * sizeof *words);
    words[STEPS] = one_in(3) ? junk() % POOL_STEP_LIMIT : one_in(2) ? POOL_STEP_LIMIT - below(80) : below(1000);
    words[PUTS] = junk();
    words[WINDOW] = one_in(3) ? junk() : head[DEPTH] * from_to(1, 3);
    words[SECOND] = one_in(3) ? junk() : head[DEPTH] * from_to(1, 3);
    for (i = 0; i < head[WIDTH]; i++) {
        uint32_t held = one_in(4) ? head[ROWS] : one_in(3) ? 0 : below(head[ROWS] + 1), *sub = words + HEAD + 2 * i;
        sub[0] = sub[1] = junk();
        if (kind == POOL_QUEUE) {
            sub[1] -= held < sub[1] ? held : sub[1];
        } else {
            sub[0] = held;
        }
    }
    for (i = 0; i < head[WORKERS]; i++) { make_up_worker(words, words + worker_at(words, 0, i)); }
    for (i = (uint32_t)cells_at(words, 0); i < needed(words, 0); i++) { words[i] = junk(); }
    if (old_verdict(words, area->len) != POOL_NO_SUCH_WORKER) { fail("an image that is not fit was made up"); }
}

/* The pool that stays and the one that travels, in edition 0, or now and then in edition 1 from its own make. */
static void make_up_pools(void) {
    uint32_t head[HEAD];
    make_up_settings(head);
    from_make = !one_in(3);
    edition = from_make && one_in(4);
    has_moved = 0;
    if (from_make) {
        make(head, &stays, 0);
    } else {
        make_up_image(head, &stays);
    }
    if (edition == 1) {
        make(head, travels, 1);
    } else {
        lend(travels, head, 0);
        memcpy(travels->words, stays.words, needed(head, 0) * sizeof *head);
    }
    compare_pools("make", stays.words);
    if (from_make && one_in(16)) {
        from_make = 0;
        stays.words[STEPS] = travels->words[STEPS] = POOL_STEP_LIMIT - below(300);
    }
}

/* A few words changed, or some cut off. */
static void damage(Area *area) {
    uint32_t faults = one_in(5) ? 0 : from_to(1, 3), cells = (uint32_t)cells_at(stays.words, edition), at;
    if (one_in(3)) { area->words[EDITION] = one_in(2) ? 1 - edition : junk(); }
    if (faults == 0 || one_in(8)) {
        area->len = one_in(3) ? below(HEAD + 2) : one_in(2) ? needed(stays.words, edition) - 1 : below((uint32_t)area->len);
    }
    while (faults-- > 0) {
        at = one_in(3) ? below(HEAD) : from_to(HEAD, cells);
        area->words[at] = one_in(2) ? junk() : one_in(2) ? stays.words[WIDTH] : area->words[at] + (one_in(2) ? 1 : UINT32_MAX);
    }
}

/* Both moves of a damaged pool, refused or not as the old library says; and where its words are not fit, any of its calls says so. */
static void move_damaged(void) {
    static Area damaged, target;
    uint32_t was_from_make = from_make, verdict, answer, i;
    Call call = {STEP, 0, 0, 0};
    copy(travels, &damaged);
    damage(&damaged);
    from_make = 0;
    for (i = 0; i < 2; i++) {
        fill(&target, damaged.used);
        target.len = one_in(4) ? below((uint32_t)target.used) : target.used;
        checked_move(&damaged, i, &target);
    }
    from_make = was_from_make;
    verdict = old_verdict(damaged.words, damaged.len);
    if (verdict == POOL_NO_SUCH_WORKER) { return; }
    call.what = below(CALLS);
    call.worker = below(stays.words[WORKERS]);
    answer = call_of(call, &damaged, 0).number;
    if (answer != verdict) { fail("the old library's %s answers %u on unfit words, and not %u", call_names[call.what], answer, verdict); }
}

static void run_case(void) {
    uint32_t turns;
    random_state = (uint64_t)seed << 32 | cases;
    random_state = (uint64_t)any() << 32 | any();
    make_up_pools();
    drive(below(one_in(4) ? 1000 : 60));
    for (turns = one_in(8) ? from_to(5, 20) : from_to(1, 4); turns > 0; turns--) {
        travel();
        if (one_in(3)) { move_damaged(); }
        drive(below(one_in(6) ? 200 : 40));
    }
}

static uint32_t never_met;

static void print_count(uint32_t number, unsigned long count, uint32_t asked_for) {
    if (count != 0 || asked_for) { printf("  %u: %lu", number, count); }
    if (count == 0 && asked_for) {
        printf(" (never met)");
        never_met++;
    }
}

static void print_phases(uint32_t made, uint32_t of_edition, uint32_t of_kind) {
    uint32_t phase;
    printf("%s of a %s %s, workers by phase:", moves[of_edition], kinds[of_kind], made ? "from make" : "as an image");
    for (phase = 0; phase < PHASES; phase++) {
        print_count(phase, phases_met[made][of_edition][of_kind][phase], has_phase[of_kind][phase]);
    }
    printf("\n");
}

/* A pool that was moved was fit: a step's 23 is a commit's, or that of an image that has ceased to be fit. */
static void print_answers(uint32_t in_edition, uint32_t of_kind) {
    static const char *const asked_for[CALLS] = {
        "1....................1..11.1....",
        "1....................1..11.1....",
        "11111................1.11.11....",
        ".111111..............1.11..1....",
    };
    uint32_t what, number;
    for (what = 0; what < CALLS; what++) {
        printf("%s of a moved %s, edition %u, answers:", call_names[what], kinds[of_kind], in_edition);
        for (number = 0; number < 32; number++) {
            print_count(number, answers_met[in_edition][of_kind][what][number], asked_for[what][number] == '1');
        }
        printf("\n");
    }
}

static void print_moves(uint32_t of_edition) {
    printf("%s: %lu moved; refused for the source", moves[of_edition], moves_made[of_edition]);
    print_count(POOL_TOO_FEW_WORDS, refused[of_edition][POOL_TOO_FEW_WORDS], 1);
    print_count(POOL_NOT_FIT, refused[of_edition][POOL_NOT_FIT], 1);
    print_count(POOL_WRONG_EDITION, refused[of_edition][POOL_WRONG_EDITION], 1);
    printf("  and for the target");
    print_count(POOL_TOO_FEW_WORDS, short_target[of_edition], 1);
    printf("\n");
}

static void print_strides(uint32_t of_kind) {
    uint32_t width, stride, met = 0;
    for (width = 1; width <= 16; width++) {
        for (stride = 0; stride < width; stride++) { met += strides_met[of_kind][width][stride]; }
    }
    printf("%s: %u of 136 widths with a stride were moved\n", kinds[of_kind], met);
    never_met += 136 - met;
}

static void print_summary(void) {
    uint32_t i;
    printf("%lu cases; %lu calls after a move; %lu times moved back to be compared alone\n", cases, calls_made, peeks);
    for (i = 0; i < 2; i++) { print_moves(i); }
    for (i = 0; i < 2; i++) { print_strides(i); }
    for (i = 0; i < 8; i++) { print_phases(1 - i / 4, i % 2, i / 2 % 2); }
    for (i = 0; i < 4; i++) { print_answers(1 - i / 2, i % 2); }
}

int main(int count, char **arguments) {
    time_t end;
    if (count != 3) {
        fprintf(stderr, "old_box: call it as old_box SEED SECONDS\n");
        return 2;
    }
    seed = (uint32_t)strtoul(arguments[1], NULL, 10);
    end = time(NULL) + (time_t)strtoul(arguments[2], NULL, 10);
    do {
        cases++;
        run_case();
    } while (time(NULL) < end);
    print_summary();
    printf(never_met == 0 ? "all equal\n" : "all equal, but %u of what is asked for was never met\n", never_met);
    return never_met == 0 ? 0 : 1;
}
