//! Paper 01, Runs by hand, the first with K5's numbers and K8's: a test for each of
//! them, in its order.

mod common;

use common::{finish, made, put, put_answer, queue, stack, take, taken_answer};
use second::{begin_put, in_edition, layout, step, Answer, Edition, Settings};
use second::{EMPTY, FULL, MOVING, OFF_LIMITS, SPENT, STEP_LIMIT, TOO_SHORT};

fn make_number(settings: Settings, len: usize) -> u32 {
    make_number_in(Edition::CURRENT, settings, len)
}

fn make_number_in(edition: Edition, settings: Settings, len: usize) -> u32 {
    in_edition::make(edition, &mut vec![0; len], settings).number
}

#[test]
fn needed_words() {
    for settings in [queue(2, 1, 4, 2), queue(2, 2, 4, 2), stack(2, 2, 1, 4, 2)] {
        for (edition, needed) in [(Edition::Zero, 48), (Edition::One, 50), (Edition::Two, 90)] {
            assert_eq!(settings.needed_words_in(edition), needed);
            assert_eq!(make_number_in(edition, settings, needed), MOVING);
            assert_eq!(make_number_in(edition, settings, needed - 1), TOO_SHORT);
        }
    }
}

#[test]
fn limits_of_width_and_rows() {
    assert_eq!(make_number(queue(16, 1, 256, 1), 10_000), MOVING);
    assert_eq!(make_number(stack(16, 1, 1, 256, 1), 10_000), MOVING);
    assert_eq!(make_number(queue(16, 1, 257, 1), 10_000), OFF_LIMITS);
    assert_eq!(make_number(stack(16, 1, 1, 257, 1), 10_000), OFF_LIMITS);
    assert_eq!(make_number(queue(17, 1, 2, 1), 10_000), OFF_LIMITS);
    assert_eq!(make_number(stack(17, 1, 1, 2, 1), 10_000), OFF_LIMITS);
}

#[test]
fn four_puts_the_fifth_full_then_a_take() {
    let mut words = made(queue(2, 1, 2, 1));
    assert_eq!(put(&mut words, 0, 11), (put_answer(11, 0, 1, 1), 3));
    assert_eq!(put(&mut words, 0, 12), (put_answer(12, 1, 1, 2), 4));
    assert_eq!(put(&mut words, 0, 13), (put_answer(13, 1, 2, 3), 7));
    assert_eq!(put(&mut words, 0, 14), (put_answer(14, 0, 2, 4), 4));
    assert_eq!(put(&mut words, 0, 15), (Answer::of(FULL), 4));
    assert_eq!(take(&mut words, 0), (taken_answer(11, 0, 1, 1, 0), 3));
}

#[test]
fn a_take_at_the_bound() {
    let settings = queue(2, 2, 4, 2);
    let mut words = made(settings);
    put(&mut words, 0, 5);
    put(&mut words, 0, 6);
    put(&mut words, 1, 7);
    assert_eq!(take(&mut words, 1).0, taken_answer(7, 1, 1, 3, 2));
    assert_eq!(second::distance_bound(&settings), 2);
}

#[test]
fn a_new_queue_is_empty() {
    let mut words = made(queue(2, 1, 2, 1));
    assert_eq!(take(&mut words, 0), (Answer::of(EMPTY), 5));
}

#[test]
fn two_puts_at_commit() {
    let mut words = made(queue(1, 1, 2, 2));
    for worker in [0, 1] {
        begin_put(&mut words, worker, 20 + worker);
        step(&mut words, worker);
        step(&mut words, worker);
    }
    let commit = second::phase::Side::Put.phase(second::phase::Stage::Commit);
    let workers_at = queue(1, 1, 2, 2).workers_at();
    for worker in [0, 1] {
        let at = workers_at + layout::WORKER_WORDS * worker;
        assert_eq!(words[at + layout::PHASE], commit);
        assert_eq!(words[at + layout::SEEN], 0);
    }
    assert_eq!(finish(&mut words, 0), (put_answer(20, 0, 1, 1), 1));
    assert_eq!(step(&mut words, 1), Answer::of(MOVING));
    assert_eq!(finish(&mut words, 1), (put_answer(21, 0, 2, 2), 6));
}

#[test]
fn a_new_stack() {
    let mut words = made(stack(1, 1, 1, 2, 1));
    assert_eq!(take(&mut words, 0), (Answer::of(EMPTY), 4));
    let mut words = made(stack(1, 1, 1, 2, 1));
    assert_eq!(put(&mut words, 0, 9), (put_answer(9, 0, 1, 1), 4));
}

#[test]
fn the_step_limit() {
    for settings in [queue(1, 1, 2, 1), stack(1, 1, 1, 2, 1)] {
        let mut words = made(settings);
        begin_put(&mut words, 0, 1);
        words[layout::STEPS_COUNTED] = STEP_LIMIT - 1;
        assert_eq!(step(&mut words, 0), Answer::of(MOVING));
        assert_eq!(words[layout::STEPS_COUNTED], STEP_LIMIT);
        let before = words.clone();
        assert_eq!(step(&mut words, 0), Answer::of(SPENT));
        assert_eq!(words, before);
    }
}
