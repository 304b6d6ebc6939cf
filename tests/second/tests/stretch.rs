//! Stretches, steps of a queue without a final answer (K7): the figures at
//! settings worked out by hand, a run by hand to the exact one, and the most
//! steps from every state of small queues. The cross-check comes to the figure
//! for every width.

mod common;

use common::solo::is_idle;
use common::states::every_state;
use common::stretch::most_steps_of_stretch;
use common::{made, put, queue, stack, strided, take};
use second::{begin_put, begin_take, dispatch, layout, longest_stretch, step, stretch_bound};
use second::{Answer, Dispatched, EMPTY, MOVING, STEP_LIMIT};

#[test]
fn figures_by_hand() {
    // K7's and the exact one.
    let by_hand = [
        (queue(1, 1, 2, 1), 12, 5),
        (queue(3, 1, 2, 1), 24, 9),
        (queue(1, 1, 2, 2), 24, 12),
        // 5w + 1 and 4w + 3 are equal.
        (queue(2, 1, 2, 2), 36, 17),
        (queue(3, 1, 2, 2), 48, 23),
        (queue(1, 1, 2, 3), 36, 19),
        (queue(2, 1, 2, 3), 54, 28),
        (queue(16, 1, 2, 32), 3264, 2531),
    ];
    for (settings, bound, longest) in by_hand {
        assert_eq!(stretch_bound(&settings), bound, "{settings:?}");
        assert_eq!(longest_stretch(&settings), longest, "{settings:?}");
    }
}

#[test]
fn the_figure_stands_below_k7s() {
    for width in 1..=16 {
        for workers in 1..=32 {
            let settings = queue(width, 1, 2, workers);
            assert!(longest_stretch(&settings) < stretch_bound(&settings));
        }
    }
}

#[test]
fn queues_reach_the_figure() {
    let queues = [
        queue(1, 1, 2, 1),
        queue(1, 2, 4, 1),
        queue(2, 1, 2, 1),
        queue(2, 2, 4, 1),
        queue(3, 1, 3, 1),
        queue(4, 1, 2, 1),
        queue(1, 1, 2, 2),
        queue(1, 1, 3, 2),
        queue(1, 3, 6, 2),
        queue(2, 1, 2, 2),
        queue(2, 1, 3, 2),
        queue(2, 2, 4, 2),
        queue(3, 1, 2, 2),
        strided(2, queue(3, 1, 2, 2)),
        queue(1, 1, 2, 3),
        queue(1, 2, 4, 3),
    ];
    for settings in queues {
        let longest = Some(longest_stretch(&settings));
        assert_eq!(most_steps_of_stretch(settings), longest, "{settings:?}");
    }
}

/// Two workers that shift a stack's window up and down in turn go on for ever
/// where the shift is the depth. A worker by itself does not.
#[test]
fn stacks_have_no_figure() {
    let stacks = [
        stack(1, 1, 1, 2, 2),
        stack(1, 2, 2, 4, 2),
        stack(2, 1, 1, 2, 2),
        stack(2, 1, 1, 3, 2),
    ];
    for settings in stacks {
        assert_eq!(most_steps_of_stretch(settings), None, "{settings:?}");
    }
    assert_eq!(most_steps_of_stretch(stack(2, 1, 1, 2, 1)), Some(7));
}

fn steps(words: &mut [u32], worker: u32, number: u32) {
    for _ in 0..number {
        assert_eq!(step(words, worker), Answer::of(MOVING), "worker {worker}");
    }
}

/// The taker has read sub 1 bare when the filler puts into each sub and takes
/// from it: then 17 steps, and the last take is empty only with one more.
#[test]
fn a_run_to_the_figure() {
    let mut words = made(queue(2, 1, 2, 2));
    begin_take(&mut words, 1);
    steps(&mut words, 1, 2);
    for value in [5, 6] {
        put(&mut words, 0, value);
    }
    for _ in 0..2 {
        take(&mut words, 0);
    }
    // The rest of the pass, and two confirms: a sum that is not 0.
    steps(&mut words, 1, 1 + 2);
    // Window, and all subs spent.
    steps(&mut words, 1, 1 + 2);
    begin_put(&mut words, 0, 7);
    // Window, all subs full, the shift; window, a hit.
    steps(&mut words, 0, 1 + 2 + 1 + 2);
    // The shift to where there is nothing yet: all subs bare, a confirm.
    steps(&mut words, 1, 1 + 1 + 2 + 1);
    assert_eq!(step(&mut words, 1), Answer::of(EMPTY));
}

/// With one step more than the longest stretch in the count, and no more left
/// in the step count, a dispatch from any worker finishes an operation.
#[test]
fn dispatches_finish_within_the_figure() {
    for settings in [queue(1, 1, 2, 3), queue(2, 1, 2, 2), queue(3, 1, 2, 1)] {
        let count = longest_stretch(&settings) + 1;
        every_state(settings, |words| {
            let mut words = words.to_vec();
            words[layout::STEPS_COUNTED] = STEP_LIMIT - count;
            let none_busy = (0..settings.workers).all(|worker| is_idle(&words, worker));
            for named in 0..settings.workers {
                let dispatched = dispatch(&mut words.clone(), named, count);
                let finished = matches!(dispatched, Dispatched::Finished { .. });
                assert!(finished != none_busy, "{named}, {dispatched:?}: {words:?}");
            }
        });
    }
}
