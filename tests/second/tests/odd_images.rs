//! Images that no make leads to, of edition 1: the order of refusals, and the readings
//! of "sums in a step are modulo 2^32". Those of edition 2 are in size_rows.rs.

mod common;

use common::{made_in, queue, stack};
use second::phase::{Side, Stage};
use second::{in_edition, layout, Answer, Edition, Settings};
use second::{BUSY, EMPTY, IDLE, MOVING, NO_WORKER, PUT, SPENT, STEP_LIMIT, TOO_SHORT, UNFIT};

const TOP: u32 = u32::MAX;

fn made(settings: Settings) -> Vec<u32> {
    made_in(Edition::One, settings)
}

fn begin_put(words: &mut [u32], worker: u32, value: u32) -> Answer {
    in_edition::begin_put(Edition::One, words, worker, value)
}

fn step(words: &mut [u32], worker: u32) -> Answer {
    in_edition::step(Edition::One, words, worker)
}

/// A made pool whose worker 0 has these words.
fn with_worker(settings: Settings, phase: u32, set: &[(usize, u32)]) -> Vec<u32> {
    let mut words = made(settings);
    let at = settings.workers_at();
    words[at + layout::PHASE] = phase;
    for (which, word) in set {
        words[at + which] = *word;
    }
    words
}

fn worker_word(settings: Settings, words: &[u32], which: usize) -> u32 {
    words[settings.workers_at() + which]
}

fn refused_unchanged(words: &mut [u32], worker: u32, number: u32) {
    let before = words.to_vec();
    assert_eq!(step(words, worker), Answer::of(number));
    assert_eq!(words, before);
}

#[test]
fn refusals_stand_in_their_order() {
    let settings = queue(1, 1, 2, 1);
    let mut words = made(settings);
    words[layout::STEPS_COUNTED] = STEP_LIMIT;
    refused_unchanged(&mut words, 0, IDLE);
    assert_eq!(begin_put(&mut words, 0, 1), Answer::of(SPENT));
    words[settings.workers_at()] = 1;
    refused_unchanged(&mut words, 0, SPENT);
    assert_eq!(begin_put(&mut words, 0, 1), Answer::of(BUSY));
    refused_unchanged(&mut words, 1, NO_WORKER);
    words[settings.subs_at() + layout::ITEMS_TAKEN] = 1;
    refused_unchanged(&mut words, 1, UNFIT);
    let short = settings.needed_words_in(Edition::One) - 1;
    refused_unchanged(&mut words[..short], 1, TOO_SHORT);
    words[layout::EDITION] = 0;
    refused_unchanged(&mut words[..short], 1, UNFIT);
    refused_unchanged(&mut words[..12], 1, UNFIT);
    refused_unchanged(&mut words[..11], 1, TOO_SHORT);
    refused_unchanged(&mut [], 1, TOO_SHORT);
}

#[test]
fn phases_of_each_kind() {
    for phase in 0..20 {
        let known = matches!(phase, 0..=6 | 9..=14);
        let of_queue = known && ![3, 6, 11].contains(&phase);
        for (settings, fits) in [(queue(1, 1, 2, 2), of_queue), (stack(1, 1, 1, 2, 2), known)] {
            let mut words = with_worker(settings, phase, &[]);
            let number = begin_put(&mut words, 1, 1).number;
            assert_eq!(number, if fits { MOVING } else { UNFIT }, "phase {phase}");
        }
    }
}

#[test]
fn a_commit_that_matches_without_room_or_item() {
    let commit_put = Side::Put.phase(Stage::Commit);
    let commit_take = Side::Take.phase(Stage::Commit);
    let full = queue(1, 1, 2, 1);
    let mut words = with_worker(full, commit_put, &[(layout::SEEN, 2)]);
    words[full.subs_at() + layout::ITEMS_PUT] = 2;
    refused_unchanged(&mut words, 0, UNFIT);
    refused_unchanged(&mut with_worker(full, commit_take, &[]), 0, UNFIT);
    let full = stack(1, 1, 1, 2, 1);
    let mut words = with_worker(full, commit_put, &[]);
    words[full.subs_at() + layout::ITEMS_HELD] = 2;
    refused_unchanged(&mut words, 0, UNFIT);
    refused_unchanged(&mut with_worker(full, commit_take, &[]), 0, UNFIT);
}

#[test]
fn a_put_count_that_wraps() {
    let settings = queue(1, 1, 3, 1);
    let mut words = with_worker(settings, 4, &[(layout::SEEN, TOP), (layout::VALUE, 8)]);
    words[settings.subs_at()] = TOP;
    words[settings.subs_at() + 1] = TOP;
    words[layout::PUTS_MADE] = TOP;
    let answer = step(&mut words, 0);
    assert_eq!((answer.number, answer.row, answer.stamp), (PUT, 0, 0));
    assert_eq!(words[settings.subs_at()], 0);
    // 2^32 - 1 is 0 modulo 3.
    let cells_at = settings.cells_at_in(Edition::One);
    assert_eq!(words[cells_at + layout::CELL_VALUE], 8);
}

#[test]
fn a_bare_count_that_wraps_goes_to_shift() {
    let settings = queue(1, 1, 2, 1);
    let read = Side::Take.phase(Stage::Read);
    let mut words = with_worker(
        settings,
        read,
        &[(layout::EXTRA, TOP), (layout::SEEN_WINDOW, 1)],
    );
    step(&mut words, 0);
    let shift = Side::Take.phase(Stage::Shift);
    assert_eq!(worker_word(settings, &words, layout::PHASE), shift);
    assert_eq!(worker_word(settings, &words, layout::EXTRA), 0);
    assert_eq!(step(&mut words, 0), Answer::of(EMPTY));
}

#[test]
fn a_seen_window_below_the_depth_misses() {
    let settings = stack(1, 2, 1, 4, 1);
    let read = Side::Take.phase(Stage::Read);
    let mut words = with_worker(settings, read, &[(layout::SEEN_WINDOW, 1)]);
    words[settings.subs_at() + layout::ITEMS_HELD] = 4;
    step(&mut words, 0);
    let shift = Side::Take.phase(Stage::Shift);
    assert_eq!(worker_word(settings, &words, layout::PHASE), shift);
}

#[test]
fn a_put_window_below_the_take_window() {
    let settings = queue(1, 1, 2, 1);
    let shift = Side::Put.phase(Stage::Shift);
    let mut words = with_worker(settings, shift, &[(layout::SEEN_WINDOW, 0)]);
    words[layout::PUT_WINDOW] = 0;
    words[layout::TAKE_WINDOW] = 2;
    assert_eq!(step(&mut words, 0), Answer::of(MOVING));
    assert_eq!(words[layout::PUT_WINDOW], 1);
    let mut words = with_worker(settings, shift, &[(layout::SEEN_WINDOW, 0)]);
    words[layout::PUT_WINDOW] = 0;
    words[layout::TAKE_WINDOW] = 3;
    assert_eq!(step(&mut words, 0), Answer::of(second::FULL));
}

#[test]
fn a_stack_window_that_wraps() {
    let settings = stack(1, 2, 2, 4, 1);
    let shift = Side::Put.phase(Stage::Shift);
    let mut words = with_worker(settings, shift, &[(layout::EXTRA, TOP)]);
    words[layout::WINDOW] = TOP;
    words[layout::WINDOW_VERSION] = TOP;
    assert_eq!(step(&mut words, 0), Answer::of(MOVING));
    assert_eq!(words[layout::WINDOW], 1);
    assert_eq!(words[layout::WINDOW_VERSION], 0);
}
