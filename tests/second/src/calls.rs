//! The pool's calls: make, begin put, begin take and step; and from edition 2 on the
//! one that sets a size. The edition decides what make writes, what is fit and where a
//! word stands; the rules are the same in all.

use crate::answer::{Answer, BUSY, IDLE, MOVING, NO_WORKER, OFF_LIMITS, SPENT, STEP_LIMIT};
use crate::answer::{NO_SUCH_SIZE, TOO_SHORT};
use crate::pool::edition::Edition;
use crate::pool::fit::fit;
use crate::pool::phase::{self, Side, Stage};
use crate::pool::settings::{Settings, QUEUE};
use crate::pool::size::Size;
use crate::pool::{layout, Pool, Worker};
use crate::stages;

/// Paper 01, "Make sets P = T = d, or G = d; worker i has index i mod w; all
/// other needed words but the settings are zero", and K5's edition. K8: the next size,
/// and that of the one window, "is the pool's". Refusals: 22, then 21.
pub fn make(edition: Edition, words: &mut [u32], settings: Settings) -> Answer {
    if !settings.within_limits_in(edition) {
        return Answer::of(OFF_LIMITS);
    }
    let needed = settings.needed_words_in(edition);
    if words.len() < needed {
        return Answer::of(TOO_SHORT);
    }
    words[..needed].fill(0);
    words[layout::KIND] = settings.kind;
    words[layout::WIDTH] = settings.width;
    words[layout::DEPTH] = settings.depth;
    words[layout::SHIFT] = settings.shift;
    words[layout::ROWS] = settings.rows;
    words[layout::WORKERS] = settings.workers;
    words[layout::STRIDE] = settings.stride;
    words[layout::EDITION] = edition.word();
    if settings.kind == QUEUE {
        words[layout::PUT_WINDOW] = settings.depth;
        words[layout::TAKE_WINDOW] = settings.depth;
    } else {
        words[layout::WINDOW] = settings.depth;
    }
    let mut pool = Pool {
        words,
        settings,
        edition,
    };
    if pool.has_sizes() {
        pool.set_next_size(Size::of_pool(&settings));
        pool.set_live(1);
        pool.set_live_size(0, Size::of_pool(&settings));
    }
    for i in 0..settings.workers {
        let made = Worker {
            index: i % settings.width,
            ..Worker::default()
        };
        pool.set_worker(i, made);
    }
    Answer::of(MOVING)
}

pub fn begin_put(edition: Edition, words: &mut [u32], number: u32, value: u32) -> Answer {
    begin(edition, words, number, (Side::Put, value))
}

pub fn begin_take(edition: Edition, words: &mut [u32], number: u32) -> Answer {
    begin(edition, words, number, (Side::Take, 0))
}

/// "Begin sets the value (0 for a take), phase 1 or 9, other words zero, index
/// kept", and the failed commits. A begin is no step: the step count stays.
fn begin(edition: Edition, words: &mut [u32], number: u32, (side, value): (Side, u32)) -> Answer {
    let mut pool = match admitted(edition, words, number, false) {
        Ok(pool) => pool,
        Err(refusal) => return Answer::of(refusal),
    };
    let begun = Worker {
        phase: side.phase(Stage::Window),
        value,
        ..pool.worker(number).idle()
    };
    pool.set_worker(number, begun);
    Answer::of(MOVING)
}

pub fn step(edition: Edition, words: &mut [u32], number: u32) -> Answer {
    let mut pool = match admitted(edition, words, number, true) {
        Ok(pool) => pool,
        Err(refusal) => return Answer::of(refusal),
    };
    let mut worker = pool.worker(number);
    let (side, stage) = phase::decode(worker.phase).expect("a fit worker not idle has a stage");
    let answer = stages::run(&mut pool, &mut worker, side, stage);
    if answer.is_refusal() {
        return answer;
    }
    if answer.is_final() {
        worker = worker.idle();
    }
    pool.set_worker(number, worker);
    // "A step not refused adds 1 to the step count", which is below its limit.
    pool.words[layout::STEPS_COUNTED] += 1;
    answer
}

/// K8: "A call sets the size of put windows from the next one on", and after fitness
/// "refuses a next size off limits, or one for a pile, with 32". It is no step: it
/// neither counts nor goes by the step count. Before edition 2 there is no such call.
pub fn set_size(words: &mut [u32], size: Size) -> Answer {
    let mut pool = match fit(words, Edition::Two) {
        Ok(pool) => pool,
        Err(refusal) => return Answer::of(refusal),
    };
    if !pool.is_queue() || !size.within_limits(&pool.settings) {
        return Answer::of(NO_SUCH_SIZE);
    }
    pool.set_next_size(size);
    let set = pool.size_word(layout::SIZE_SET);
    pool.words[set] = 1;
    Answer::of(MOVING)
}

/// Paper 01, Order: fit (21 and 23), then 24, 25 or 26, 27.
fn admitted(
    edition: Edition,
    words: &mut [u32],
    number: u32,
    busy_wanted: bool,
) -> Result<Pool<'_>, u32> {
    let pool = fit(words, edition)?;
    if number >= pool.settings.workers {
        return Err(NO_WORKER);
    }
    let busy = pool.worker(number).phase != phase::IDLE;
    if busy && !busy_wanted {
        return Err(BUSY);
    }
    if !busy && busy_wanted {
        return Err(IDLE);
    }
    if pool.words[layout::STEPS_COUNTED] >= STEP_LIMIT {
        return Err(SPENT);
    }
    Ok(pool)
}
