//! Rows and sums around 2^32 in edition 2, which no make leads to, and steps that leave
//! words that are not fit. The readings are those of edition 1's odd images, and:
//! "passes" compares plain numbers, and the stored row is modulo 2^32.

mod common;

use common::sizes::{begin, dispatch, fitness, is_fit, live, made_2, moves, set_live, set_sub};
use common::sizes::{set_worker, size_word, step, sub, worker_word};
use common::{put_answer, queue, set_phase};
use second::phase::{Side, Stage};
use second::{layout, Answer, Dispatched, FULL, MOVING, TAKEN, UNFIT};

const TOP: u32 = u32::MAX;

/// One worker at this stage of a queue w 1, d 1, R 3 whose take window has this top.
fn at(take_top: u32, rows: [u32; 2], side: Side, stage: Stage, set: &[(usize, u32)]) -> Vec<u32> {
    let mut words = made_2(queue(1, 1, 3, 2));
    set_live(&mut words, take_top, &[(1, 1)]);
    set_sub(&mut words, 0, rows);
    set_phase(&mut words, 0, side.phase(stage));
    set_worker(&mut words, 0, set);
    assert!(is_fit(&words), "{words:?}");
    words
}

fn refused_unchanged(mut words: Vec<u32>) {
    let before = words.clone();
    assert_eq!(step(&mut words, 0), Answer::of(UNFIT));
    assert_eq!(words, before);
}

#[test]
fn a_put_that_lands_in_row_0() {
    // Last rows of 2^32 - 1, wherever the windows are.
    for take_top in [1, TOP - 1, TOP] {
        let set = [(layout::SEEN, TOP), (layout::VALUE, 8)];
        let mut words = at(take_top, [TOP, TOP], Side::Put, Stage::Commit, &set);
        words[layout::PUTS_MADE] = TOP;
        assert_eq!(step(&mut words, 0), put_answer(8, 0, 0, 0));
        assert_eq!(sub(&words, 0), [0, TOP]);
        // 2^32 - 1 is 0 modulo 3.
        let cell = queue(1, 1, 3, 2).cells_at_in(common::sizes::TWO);
        assert_eq!(words[cell + layout::CELL_VALUE], 8);
        assert_eq!(fitness(&words), UNFIT);
    }
    // By a seen bottom of 2^32 - 1, with free cells.
    let set = [(layout::SEEN, TOP - 1), (layout::SEEN_BOTTOM, TOP)];
    let mut words = at(1, [TOP - 1, TOP - 1], Side::Put, Stage::Commit, &set);
    assert_eq!(step(&mut words, 0), put_answer(0, 0, 0, 1));
    assert_eq!(sub(&words, 0), [0, TOP - 1]);
}

#[test]
fn a_last_put_row_of_2_to_the_32_less_1_without_a_free_cell() {
    let set = [(layout::SEEN, TOP)];
    refused_unchanged(at(1, [TOP, TOP - 3], Side::Put, Stage::Commit, &set));
    let mut words = at(1, [TOP, TOP - 2], Side::Put, Stage::Commit, &set);
    assert_eq!(step(&mut words, 0), put_answer(0, 0, 0, 1));
    // A take window's bottom that is higher than the last taken row.
    let mut words = at(TOP - 1, [TOP, 5], Side::Put, Stage::Commit, &set);
    assert_eq!(step(&mut words, 0), put_answer(0, 0, 0, 1));
    refused_unchanged(at(TOP - 2, [TOP, 5], Side::Put, Stage::Commit, &set));
}

/// "At or below the base: it does not pass", also where a wrapping difference would be
/// more than R.
#[test]
fn a_row_below_the_take_windows_bottom_has_a_free_cell() {
    for take_top in [10, 1 << 31, TOP] {
        let mut words = at(take_top, [0, 0], Side::Put, Stage::Commit, &[]);
        assert_eq!(step(&mut words, 0), put_answer(0, 0, 1, 1));
        assert_eq!(fitness(&words), UNFIT);
    }
}

#[test]
fn a_take_of_row_2_to_the_32() {
    // Last rows of 2^32 - 1: a take that matches has no item, nor has one by its bottom.
    let set = [(layout::SEEN, TOP)];
    refused_unchanged(at(1, [TOP, TOP], Side::Take, Stage::Commit, &set));
    let set = [(layout::SEEN, TOP - 1), (layout::SEEN_BOTTOM, TOP)];
    refused_unchanged(at(1, [TOP, TOP - 1], Side::Take, Stage::Commit, &set));
    let set = [(layout::SEEN, TOP - 1)];
    let mut words = at(1, [TOP, TOP - 1], Side::Take, Stage::Commit, &set);
    let answer = step(&mut words, 0);
    assert_eq!((answer.number, answer.row), (TAKEN, TOP));
    assert_eq!(sub(&words, 0), [TOP, TOP]);
}

/// "These sums may pass 2^32 even in a pool from make."
#[test]
fn sums_come_round() {
    let mut words = made_2(queue(2, 1, 3, 2));
    set_live(&mut words, TOP - 1, &[(2, 1)]);
    set_sub(&mut words, 1, [TOP - 2, TOP - 2]);
    begin(&mut words, 0, Side::Take);
    moves(&mut words, 0, 3);
    // The bottom, and the last put row beside it: both are 2^32 - 3.
    assert_eq!(worker_word(&words, 0, layout::SUM), 0_u32.wrapping_sub(6));
    moves(&mut words, 0, 1);
    assert_eq!(worker_word(&words, 0, layout::SUM), 0_u32.wrapping_sub(3));
    assert_eq!(step(&mut words, 0), Answer::of(second::EMPTY));
}

#[test]
fn a_bare_count_that_comes_round_goes_to_shift() {
    let set = [(layout::EXTRA, TOP), (layout::SEEN_WINDOW, 1)];
    let mut words = at(1, [0, 0], Side::Take, Stage::Read, &set);
    moves(&mut words, 0, 1);
    let shift = Side::Take.phase(Stage::Shift);
    assert_eq!(worker_word(&words, 0, layout::PHASE), shift);
}

/// A new top is modulo 2^32, and its distance from the bottom is not: there is room, and
/// the pool is not fit any more. The next step is refused, in a dispatch too.
#[test]
fn a_put_shift_past_2_to_the_32() {
    let shift = |rows: u32, next_depth: u32| {
        let mut words = made_2(queue(1, 1, rows, 2));
        set_live(&mut words, TOP - 1, &[(1, 1), (1, 1)]);
        let size = size_word(&words, 0);
        words[size + layout::NEXT_DEPTH] = next_depth;
        set_phase(&mut words, 0, Side::Put.phase(Stage::Shift));
        set_worker(&mut words, 0, &[(layout::SEEN_WINDOW, TOP)]);
        begin(&mut words, 1, Side::Take);
        words
    };
    // Above the bottom, 2^32 - 3, by 3, and by 4.
    for (next_depth, top) in [(1, 0), (2, 1)] {
        let mut words = shift(4, next_depth);
        let mut by_steps = words.clone();
        moves(&mut by_steps, 0, 1);
        assert_eq!(by_steps[layout::PUT_WINDOW], top);
        assert_eq!(live(&by_steps), [(1, 1), (1, 1), (1, next_depth)]);
        assert_eq!(fitness(&by_steps), UNFIT);
        let mut once = words.clone();
        assert_eq!(dispatch(&mut once, 0, 1), Dispatched::RanOut { next: 1 });
        assert_eq!(once, by_steps);
        assert_eq!(dispatch(&mut words, 0, 2), Dispatched::Refused(UNFIT));
        assert_eq!(words, by_steps);
    }
    // By 4 there is no room in 3 rows, whatever the top comes round to.
    let mut words = shift(3, 1);
    set_live(&mut words, TOP - 2, &[(1, 1); 3]);
    assert_eq!(step(&mut words, 0), Answer::of(FULL));
}

/// A take shift that leaves rows behind, as no run from make does.
#[test]
fn a_take_shift_that_leaves_no_fit_pool() {
    let mut words = made_2(queue(2, 1, 4, 2));
    set_live(&mut words, 1, &[(1, 1), (2, 1)]);
    set_sub(&mut words, 1, [1, 0]);
    set_phase(&mut words, 0, Side::Take.phase(Stage::Shift));
    set_worker(&mut words, 0, &[(layout::SEEN_WINDOW, 1)]);
    assert!(is_fit(&words));
    let mut stepped = words.clone();
    assert_eq!(step(&mut stepped, 0), Answer::of(MOVING));
    assert_eq!(fitness(&stepped), UNFIT);
    assert_eq!(dispatch(&mut words, 0, 9), Dispatched::Refused(UNFIT));
    assert_eq!(words, stepped);
}
