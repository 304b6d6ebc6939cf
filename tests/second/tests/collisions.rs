//! Collisions on the worker's card (K5): a worker's ninth word, its failed commits
//! since make, and the edition in word 11.

mod common;

use common::failed_commits::{commit_fails, failed_commits, phase, set_failed_commits};
use common::states::{every_state, small_pools, CALLS, STEP};
use common::{
    finish, fitness_in, made, put_answer, queue, set_phase, stack, strided, taken_answer, Numbers,
};
use second::phase::{decode, Side, Stage};
use second::{begin_put, begin_take, in_edition, layout, step};
use second::{Answer, Edition, Settings, CURRENT_EDITION, STACK, STEP_LIMIT};
use second::{EMPTY, FULL, MOVING, NO_WORKER, PUT, SPENT, TAKEN, TOO_SHORT, UNFIT};
use std::collections::BTreeSet;

const TOP: u32 = u32::MAX;
const SIDES: [Side; 2] = [Side::Put, Side::Take];

fn moves(words: &mut [u32], worker: u32, steps: u32) {
    for _ in 0..steps {
        assert_eq!(step(words, worker), Answer::of(MOVING));
    }
}

/// Both workers' puts come to commit, and then both takes.
#[test]
fn a_queue_by_hand() {
    let mut words = made(queue(1, 2, 4, 2));
    for worker in [0, 1] {
        begin_put(&mut words, worker, 20 + worker);
        moves(&mut words, worker, 2);
    }
    assert_eq!(finish(&mut words, 0), (put_answer(20, 0, 1, 1), 1));
    assert_eq!(failed_commits(&words), [0, 0]);
    moves(&mut words, 1, 1);
    assert_eq!(failed_commits(&words), [0, 1]);
    assert_eq!(finish(&mut words, 1), (put_answer(21, 0, 2, 2), 3));
    for worker in [0, 1] {
        begin_take(&mut words, worker);
        moves(&mut words, worker, 2);
    }
    assert_eq!(finish(&mut words, 0), (taken_answer(20, 0, 1, 1, 0), 1));
    moves(&mut words, 1, 1);
    assert_eq!(failed_commits(&words), [0, 2]);
    assert_eq!(finish(&mut words, 1), (taken_answer(21, 0, 2, 2, 0), 3));
    assert_eq!(failed_commits(&words), [0, 2]);
}

/// A take changes what a put at the same sub has seen in a stack, not in a queue.
#[test]
fn a_put_and_a_take() {
    for (settings, to_commit, failed) in [
        (queue(1, 2, 4, 2), 2, [0, 0]),
        (stack(1, 2, 1, 4, 2), 3, [0, 1]),
    ] {
        let mut words = made(settings);
        begin_put(&mut words, 1, 8);
        finish(&mut words, 1);
        begin_take(&mut words, 0);
        begin_put(&mut words, 1, 9);
        moves(&mut words, 0, to_commit);
        moves(&mut words, 1, to_commit);
        assert_eq!(finish(&mut words, 0).0.number, TAKEN);
        assert_eq!(finish(&mut words, 1).0.number, PUT);
        assert_eq!(failed_commits(&words), failed);
    }
}

/// From every state of small pools each call: a step whose commit fails counts one,
/// at its worker, and all else counts none. Nothing goes by the ninth words.
#[test]
fn each_call_from_every_state() {
    for settings in small_pools() {
        let mut met = BTreeSet::new();
        every_state(settings, |words| {
            for worker in 0..settings.workers {
                for (which, call) in CALLS.iter().enumerate() {
                    let mut without = words.to_vec();
                    let answer = call(&mut without, worker);
                    met.insert(name(words, &without, worker, answer));
                    let fails = which == STEP && commit_fails(words, worker);
                    for before in [[0, 0], [1, 7], [TOP, TOP]] {
                        let mut words = words.to_vec();
                        set_failed_commits(&mut words, before);
                        assert_eq!(call(&mut words, worker), answer);
                        let mut expected = before;
                        let own = &mut expected[worker as usize];
                        *own = own.wrapping_add(u32::from(fails));
                        assert_eq!(failed_commits(&words), expected, "{answer:?}: {words:?}");
                        set_failed_commits(&mut words, failed_commits(&without));
                        assert_eq!(words, without);
                    }
                }
            }
        });
        let of_both = [
            "a begin, to Put Window",
            "a begin, to Take Window",
            "answer 1",
            "answer 2",
            "answer 3",
            "answer 4",
            "Put Commit to Put Window",
            "Put Shift to Put Window",
            "Take Commit to Take Window",
            "Take Shift to Take Window",
            "Take Confirm to Take Window",
        ];
        let of_stacks = [
            "Put Check to Put Window",
            "Put Confirm to Put Window",
            "Take Check to Take Window",
        ];
        let of_stacks = of_stacks.iter().filter(|_| settings.kind == STACK);
        for what in of_both.iter().chain(of_stacks) {
            assert!(met.contains(*what), "{settings:?}: never {what}");
        }
    }
}

/// What a call of the worker led to, by the words before and after it.
fn name(before: &[u32], after: &[u32], worker: u32, answer: Answer) -> String {
    if answer.number != MOVING {
        return format!("answer {}", answer.number);
    }
    let [from, to] = [before, after].map(|words| decode(phase(words, worker)));
    let (side, stage) = to.expect("no worker becomes idle without an answer");
    match from {
        Some((_, from)) => format!("{side:?} {from:?} to {side:?} {stage:?}"),
        None => format!("a begin, to {side:?} {stage:?}"),
    }
}

/// The second of three workers stands at commit, at its index from make, sub 1, and
/// has seen this.
fn at_commit(settings: Settings, side: Side, seen: u32) -> Vec<u32> {
    let mut words = made(settings);
    let at = settings.workers_at() + layout::WORKER_WORDS;
    set_phase(&mut words, 1, side.phase(Stage::Commit));
    words[at + layout::SEEN] = seen;
    words
}

#[test]
fn it_counts_modulo_2_to_the_32() {
    for settings in [queue(2, 1, 2, 3), stack(2, 1, 1, 2, 3)] {
        for side in SIDES {
            for (before, after) in [(0, 1), (TOP - 1, TOP), (TOP, 0)] {
                let mut words = at_commit(settings, side, 1);
                set_failed_commits(&mut words, [TOP, before, TOP]);
                moves(&mut words, 1, 1);
                assert_eq!(failed_commits(&words), [TOP, after, TOP]);
            }
        }
    }
}

/// By its commit or its step count: the pool is fit.
fn refused_unchanged(mut words: Vec<u32>, number: u32) {
    for failed in [0, 5, TOP] {
        set_failed_commits(&mut words, [1, failed, 2]);
        assert_eq!(fitness(&words), NO_WORKER);
        let before = words.clone();
        assert_eq!(step(&mut words, 1), Answer::of(number));
        assert_eq!(words, before);
    }
}

#[test]
fn a_commit_refused_with_23_counts_none() {
    for (settings, seen) in [(queue(2, 1, 2, 3), 2), (stack(2, 1, 1, 2, 3), 0)] {
        let no_item = at_commit(settings, Side::Take, 0);
        refused_unchanged(no_item, UNFIT);
        // Sub 1 has two items: put, or held beside a version of 0.
        let mut no_free_cell = at_commit(settings, Side::Put, seen);
        no_free_cell[settings.subs_at() + layout::SUB_WORDS] = 2;
        refused_unchanged(no_free_cell, UNFIT);
    }
}

#[test]
fn a_commit_with_no_step_left_counts_none() {
    for settings in [queue(2, 1, 2, 3), stack(2, 1, 1, 2, 3)] {
        for side in SIDES {
            let mut words = at_commit(settings, side, 1);
            assert!(commit_fails(&words, 1));
            words[layout::STEPS_COUNTED] = STEP_LIMIT;
            refused_unchanged(words, SPENT);
        }
    }
}

fn fitness(words: &[u32]) -> u32 {
    fitness_in(Edition::CURRENT, words)
}

#[test]
fn any_ninth_word_is_fit() {
    for settings in [queue(1, 1, 2, 3), stack(1, 1, 1, 2, 3)] {
        for failed in [0, 1, 2, 16, 1 << 31, STEP_LIMIT, TOP - 1, TOP] {
            for all in [[failed, 0, 0], [0, 0, failed], [failed; 3]] {
                let mut words = made(settings);
                set_failed_commits(&mut words, all);
                assert_eq!(fitness(&words), NO_WORKER);
                assert_eq!(begin_take(&mut words, 2), Answer::of(MOVING));
                assert_eq!(failed_commits(&words), all);
            }
        }
    }
}

/// 21 for 12 words, 23 for the edition, 21 for the needed words, 23 for the rest.
#[test]
fn the_edition_among_the_refusals() {
    for settings in [queue(2, 1, 2, 3), strided(1, stack(2, 2, 1, 4, 2))] {
        let mut words = made(settings);
        let needed = words.len();
        words.push(0);
        for index in [0, settings.width] {
            words[settings.workers_at() + layout::INDEX] = index;
            for edition in [0, 1, 2, 3, 1 << 31, TOP] {
                words[layout::EDITION] = edition;
                for len in 0..=needed + 1 {
                    let expected = match len {
                        0..=11 => TOO_SHORT,
                        _ if edition != CURRENT_EDITION => UNFIT,
                        _ if len < needed => TOO_SHORT,
                        _ if index == settings.width => UNFIT,
                        _ => NO_WORKER,
                    };
                    assert_eq!(fitness(&words[..len]), expected, "{edition}, {len} words");
                }
            }
        }
    }
}

#[test]
fn nine_words_for_each_worker() {
    for (w, n) in (1..=16).flat_map(|w| (1..=32).map(move |n| (w, n))) {
        for rows in [2, 3, 256] {
            for settings in [queue(w, 1, rows, n), stack(w, 1, 1, rows, n)] {
                let needed = (12 + 2 * w + 9 * n + 2 * w * rows) as usize;
                assert_eq!(settings.needed_words_in(Edition::One), needed);
                let make = |words: &mut [u32]| in_edition::make(Edition::One, words, settings);
                let mut words = vec![0; needed];
                for len in [needed - n as usize, needed - 1] {
                    assert_eq!(make(&mut words[..len]).number, TOO_SHORT);
                }
                assert_eq!(make(&mut words).number, MOVING);
            }
        }
    }
}

/// In random runs from make each worker's ninth word is the number of its steps
/// that found another count or version than the one seen.
#[test]
fn runs_at_random() {
    for settings in [
        queue(1, 1, 2, 4),
        strided(2, queue(3, 2, 8, 4)),
        stack(1, 1, 1, 2, 4),
        strided(2, stack(3, 2, 1, 8, 4)),
    ] {
        let mut numbers = Numbers(5);
        let mut words = made(settings);
        let mut failed = [0; 4];
        let (mut failed_at, mut answered) = (BTreeSet::new(), BTreeSet::new());
        for _ in 0..100_000 {
            let worker = numbers.below(failed.len()) as u32;
            let call = CALLS[numbers.below(CALLS.len())];
            let before = words.clone();
            let answer = call(&mut words, worker);
            // A begin adds none to the step count, and neither does a refusal.
            let is_step = words[layout::STEPS_COUNTED] > before[layout::STEPS_COUNTED];
            if is_step && commit_fails(&before, worker) {
                failed[worker as usize] += 1;
                failed_at.insert(phase(&before, worker));
            }
            answered.insert(answer.number);
            assert_eq!(failed_commits(&words), failed, "{settings:?}");
        }
        assert!(failed.iter().all(|failed| *failed > 100), "{failed:?}");
        assert_eq!(
            failed_at,
            SIDES.map(|side| side.phase(Stage::Commit)).into()
        );
        for number in [PUT, TAKEN, EMPTY, FULL] {
            assert!(answered.contains(&number), "{settings:?}: never {number}");
        }
    }
}
