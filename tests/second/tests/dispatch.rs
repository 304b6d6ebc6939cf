//! The dispatcher (K7), case by case, and from every state of small pools beside
//! one that is made of step calls. The cross-check dispatches in runs and on
//! images.

mod common;

use common::dispatch::dispatch_by_steps;
use common::states::every_state;
use common::{made, put_answer, queue, set_phase, stack};
use second::phase::{Side, Stage};
use second::{begin_put, begin_take, dispatch, dispatch_watched, layout, step};
use second::{Answer, Dispatched, Settings, EMPTY, MOVING, NO_WORKER, PUT};
use second::{NONE_BUSY, RAN_OUT, SPENT, STEP_LIMIT, TOO_SHORT, UNFIT};

const TOP: u32 = u32::MAX;

fn refused_unchanged(words: &mut [u32], named: u32, count: u32, number: u32) {
    unchanged(words, named, count, Dispatched::Refused(number));
}

fn unchanged(words: &mut [u32], named: u32, count: u32, expected: Dispatched) {
    let before = words.to_vec();
    assert_eq!(dispatch(words, named, count), expected, "{named}, {count}");
    assert_eq!(words, before, "{named}, {count}");
}

/// The workers that a dispatch steps.
fn stepped(words: &mut [u32], named: u32, count: u32) -> Vec<u32> {
    let mut workers = Vec::new();
    dispatch_watched(words, named, count, |worker, _| workers.push(worker));
    workers
}

/// A queue in which these workers have begun a put each.
fn with_busy(workers: u32, busy: &[u32]) -> Vec<u32> {
    let mut words = made(queue(1, 1, 8, workers));
    for worker in busy {
        begin_put(&mut words, *worker, 70 + worker);
    }
    words
}

fn worker_at(words: &[u32], worker: usize) -> usize {
    Settings::of_words(words).workers_at() + layout::WORKER_WORDS * worker
}

#[test]
fn no_worker_is_busy() {
    for settings in [queue(2, 1, 2, 3), stack(2, 1, 1, 2, 3)] {
        for steps_counted in [0, STEP_LIMIT, TOP] {
            let mut words = made(settings);
            words[layout::STEPS_COUNTED] = steps_counted;
            for named in 0..3 {
                for count in [0, 1, TOP] {
                    unchanged(&mut words, named, count, Dispatched::NoneBusy);
                }
            }
        }
    }
}

#[test]
fn a_count_of_0() {
    let mut words = with_busy(3, &[1]);
    for steps_counted in [0, STEP_LIMIT, TOP] {
        words[layout::STEPS_COUNTED] = steps_counted;
        for named in 0..3 {
            unchanged(&mut words, named, 0, Dispatched::RanOut { next: named });
        }
    }
}

#[test]
fn refusals_before_the_first_turn() {
    for busy in [&[][..], &[0]] {
        let mut words = with_busy(3, busy);
        words[layout::STEPS_COUNTED] = STEP_LIMIT;
        let short = words.len() - 1;
        for count in [0, 1, TOP] {
            for named in [3, 4, TOP] {
                refused_unchanged(&mut words, named, count, NO_WORKER);
                refused_unchanged(&mut words[..short], named, count, TOO_SHORT);
                refused_unchanged(&mut words[..11], named, count, TOO_SHORT);
                refused_unchanged(&mut [], named, count, TOO_SHORT);
            }
        }
        words[layout::EDITION] = 0;
        for count in [0, 1, TOP] {
            for named in [0, 3, TOP] {
                refused_unchanged(&mut words, named, count, UNFIT);
                refused_unchanged(&mut words[..12], named, count, UNFIT);
            }
        }
    }
}

#[test]
fn round_and_round_from_the_named_worker() {
    let all = [0, 1, 2];
    assert_eq!(stepped(&mut with_busy(3, &all), 0, 5), [0, 1, 2, 0, 1]);
    assert_eq!(stepped(&mut with_busy(3, &all), 1, 2), [1, 2]);
    assert_eq!(stepped(&mut with_busy(3, &all), 2, 4), [2, 0, 1, 2]);
    assert_eq!(stepped(&mut with_busy(1, &[0]), 0, 2), [0, 0]);
}

#[test]
fn idle_workers_are_passed_over() {
    let busy = [1, 3];
    assert_eq!(stepped(&mut with_busy(4, &busy), 0, 4), [1, 3, 1, 3]);
    assert_eq!(stepped(&mut with_busy(4, &busy), 1, 1), [1]);
    assert_eq!(stepped(&mut with_busy(4, &busy), 2, 3), [3, 1, 3]);
    assert_eq!(stepped(&mut with_busy(4, &[2]), 3, 2), [2, 2]);
}

#[test]
fn the_next_turn() {
    let next = |busy: &[u32], named, count| {
        let dispatched = dispatch(&mut with_busy(4, busy), named, count);
        let Dispatched::RanOut { next } = dispatched else {
            panic!("{dispatched:?}");
        };
        next
    };
    assert_eq!(next(&[0, 1, 2, 3], 0, 1), 1);
    assert_eq!(next(&[0, 1, 2, 3], 2, 2), 0);
    // An idle worker's, and that of the one that was stepped, all round.
    assert_eq!(next(&[1, 3], 1, 1), 2);
    assert_eq!(next(&[1, 3], 2, 1), 0);
    assert_eq!(next(&[2], 0, 1), 3);
    assert_eq!(
        dispatch(&mut with_busy(1, &[0]), 0, 2),
        Dispatched::RanOut { next: 0 }
    );
}

#[test]
fn the_first_final_answer_names_its_worker() {
    let mut words = with_busy(3, &[0, 1, 2]);
    let finished = Dispatched::Finished {
        worker: 1,
        answer: put_answer(71, 0, 1, 1),
    };
    // Window and read, of 1, 2 and 0; and worker 1's commit.
    assert_eq!(
        dispatch(&mut words.clone(), 1, 6),
        Dispatched::RanOut { next: 1 }
    );
    assert_eq!(dispatch(&mut words.clone(), 1, 7), finished);
    assert_eq!(dispatch(&mut words, 1, TOP), finished);
    assert_eq!(words[layout::STEPS_COUNTED], 7);
    assert_eq!(words[worker_at(&words, 1) + layout::PHASE], 0);
    // Worker 2 has read the same sub, and its commit fails; so does 0's.
    assert_eq!(stepped(&mut words, 1, 2), [2, 0]);
    let at_window = Side::Put.phase(Stage::Window);
    for worker in [0, 2] {
        assert_eq!(words[worker_at(&words, worker) + layout::PHASE], at_window);
    }
}

#[test]
fn takes_and_puts_of_a_stack() {
    let mut words = made(stack(1, 1, 1, 2, 2));
    begin_take(&mut words, 0);
    // Window, read, shift, confirm.
    let empty = Dispatched::Finished {
        worker: 0,
        answer: Answer::of(EMPTY),
    };
    assert_eq!(dispatch(&mut words, 1, 4), empty);
    begin_put(&mut words, 1, 9);
    let put = Dispatched::Finished {
        worker: 1,
        answer: put_answer(9, 0, 1, 1),
    };
    assert_eq!(dispatch(&mut words, 0, 4), put);
    assert_eq!(dispatch(&mut words, 0, 4), Dispatched::NoneBusy);
}

#[test]
fn the_step_limit_is_a_steps_alone() {
    let mut words = with_busy(2, &[0, 1]);
    words[layout::STEPS_COUNTED] = STEP_LIMIT;
    refused_unchanged(&mut words, 0, 1, SPENT);
    words[layout::STEPS_COUNTED] = STEP_LIMIT - 3;
    let mut by_steps = words.clone();
    for worker in [1, 0, 1] {
        assert_eq!(step(&mut by_steps, worker), Answer::of(MOVING));
    }
    let mut within = words.clone();
    assert_eq!(dispatch(&mut within, 1, 3), Dispatched::RanOut { next: 0 });
    assert_eq!(within, by_steps);
    assert_eq!(dispatch(&mut words, 1, 4), Dispatched::Refused(SPENT));
    assert_eq!(words, by_steps);
}

/// Worker 1 stands at a put's commit that matches, and its sub has no free
/// cell; no make leads there.
#[test]
fn a_commits_refusal_passes_through() {
    for (settings, seen) in [(queue(1, 1, 2, 2), 2), (stack(1, 1, 1, 2, 2), 0)] {
        let mut words = made(settings);
        words[settings.subs_at()] = 2;
        let at = worker_at(&words, 1);
        set_phase(&mut words, 1, Side::Put.phase(Stage::Commit));
        words[at + layout::SEEN] = seen;
        refused_unchanged(&mut words, 1, 1, UNFIT);
        // Worker 0's step stands.
        begin_take(&mut words, 0);
        let mut stands = words.clone();
        assert_eq!(step(&mut stands, 0), Answer::of(MOVING));
        assert_eq!(dispatch(&mut words, 0, TOP), Dispatched::Refused(UNFIT));
        assert_eq!(words, stands);
    }
}

/// A put count that wraps leaves words that are not fit: the final answer is
/// the last thing that a dispatch does to them.
#[test]
fn an_answer_that_leaves_no_fit_pool() {
    let settings = queue(1, 1, 3, 2);
    let mut words = made(settings);
    words[settings.subs_at()..settings.workers_at()].fill(TOP);
    let at = worker_at(&words, 0);
    set_phase(&mut words, 0, Side::Put.phase(Stage::Commit));
    words[at + layout::SEEN] = TOP;
    begin_take(&mut words, 1);
    let (number, fields) = dispatch(&mut words, 0, TOP).returned();
    assert_eq!((number, fields), (PUT, [0, 0, 0, 1, 0, 0]));
    refused_unchanged(&mut words, 1, 1, UNFIT);
}

#[test]
fn what_c_gets() {
    let finished = Dispatched::Finished {
        worker: 9,
        answer: Answer::with(second::TAKEN, [5, 6, 7, 8, 4]),
    };
    assert_eq!(finished.returned(), (2, [5, 6, 7, 8, 4, 9]));
    assert_eq!(Dispatched::NoneBusy.returned(), (NONE_BUSY, [0; 6]));
    let ran_out = Dispatched::RanOut { next: 3 };
    assert_eq!(ran_out.returned(), (RAN_OUT, [0, 0, 0, 0, 0, 3]));
    assert_eq!(Dispatched::Refused(SPENT).returned(), (27, [0; 6]));
    assert_eq!((NONE_BUSY, RAN_OUT), (5, 6));
}

/// Near the step limit too, and by a number that no worker has.
#[test]
fn dispatches_beside_step_calls() {
    for settings in [queue(1, 1, 2, 3), queue(2, 1, 2, 2), stack(2, 1, 1, 2, 2)] {
        let mut left = 0;
        every_state(settings, |words| {
            let mut words = words.to_vec();
            left = (left + 1) % 60;
            words[layout::STEPS_COUNTED] = STEP_LIMIT - left;
            for named in 0..=settings.workers {
                for count in [0, 1, 2, 5, 40] {
                    let mut after = [words.clone(), words.clone()];
                    let [ours, theirs] = &mut after;
                    let dispatched = dispatch(ours, named, count);
                    assert_eq!(dispatched, dispatch_by_steps(theirs, named, count));
                    assert_eq!(after[0], after[1], "{named}, {count}: {words:?}");
                }
            }
        });
    }
}

/// A caller that goes on with the next turn's worker gets just the steps that
/// one greater count would have made.
#[test]
fn it_goes_on_where_the_count_ran_out() {
    for settings in [queue(1, 1, 2, 3), stack(2, 1, 1, 2, 2)] {
        every_state(settings, |words| {
            for (count, more) in [(1, 1), (3, 4)] {
                let mut at_once = words.to_vec();
                let mut in_two = words.to_vec();
                let mut dispatched = dispatch(&mut in_two, 0, count);
                if let Dispatched::RanOut { next } = dispatched {
                    dispatched = dispatch(&mut in_two, next, more);
                }
                assert_eq!(dispatched, dispatch(&mut at_once, 0, count + more));
                assert_eq!(in_two, at_once, "{words:?}");
            }
        });
    }
}
