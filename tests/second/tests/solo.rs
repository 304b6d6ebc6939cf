//! K3, a worker left by itself: the figures at settings worked out by hand, and
//! solo operations from every state of small pools. The cross-check has solo
//! operations of every width.

mod common;

use common::solo::{begin, every_solo_operation, is_idle, solo, Operation, SIDES};
use common::{queue, stack, strided};
use second::{solo_steps, solo_steps_bound, step};
use second::{Answer, Settings, BUSY, IDLE, MOVING, NO_WORKER, SPENT};

/// Of a put and of a take.
fn figures(settings: &Settings) -> [u32; 2] {
    SIDES.map(|side| solo_steps(settings, side))
}

#[test]
fn figures_by_hand() {
    let by_hand = [
        (queue(1, 1, 2, 2), 11, [6, 6]),
        (queue(2, 1, 2, 2), 14, [7, 9]),
        (queue(16, 1, 2, 2), 56, [21, 51]),
        (stack(1, 1, 1, 3, 2), 11, [10, 10]),
        // 2w + 8 and 3w + 4 are equal.
        (stack(4, 1, 1, 3, 2), 20, [16, 16]),
        (stack(5, 1, 1, 3, 2), 23, [19, 19]),
        (stack(16, 1, 1, 3, 2), 56, [52, 52]),
    ];
    for (settings, bound, expected) in by_hand {
        assert_eq!(solo_steps_bound(&settings), bound, "{settings:?}");
        assert_eq!(figures(&settings), expected, "{settings:?}");
    }
}

#[test]
fn the_figures_stand_below_k3s() {
    for width in 1..=16 {
        for settings in [queue(width, 1, 2, 2), stack(width, 1, 1, 2, 2)] {
            let bound = solo_steps_bound(&settings);
            assert!(figures(&settings).iter().all(|figure| *figure < bound));
        }
    }
}

/// Of a put and of a take, from every state.
fn most_steps(settings: Settings) -> [u32; 2] {
    let mut most = [0, 0];
    every_solo_operation(settings, |_, (_, side), steps| {
        let most = &mut most[side as usize];
        *most = steps.max(*most);
    });
    most
}

#[test]
fn queues_reach_the_figures() {
    let queues = [
        queue(1, 1, 2, 1),
        queue(1, 1, 2, 3),
        queue(1, 2, 4, 2),
        queue(2, 1, 2, 2),
        queue(2, 1, 3, 2),
        queue(2, 2, 4, 2),
        queue(3, 1, 2, 2),
        strided(2, queue(3, 1, 2, 2)),
    ];
    for settings in queues {
        assert_eq!(most_steps(settings), figures(&settings), "{settings:?}");
    }
}

#[test]
fn stacks_reach_the_figures() {
    let stacks = [
        stack(1, 1, 1, 3, 2),
        stack(1, 1, 1, 3, 3),
        stack(1, 2, 1, 4, 2),
        stack(1, 2, 2, 6, 2),
        stack(2, 1, 1, 3, 2),
        stack(2, 2, 1, 4, 2),
        stack(3, 1, 1, 3, 2),
        strided(2, stack(3, 1, 1, 3, 2)),
    ];
    for settings in stacks {
        assert_eq!(most_steps(settings), figures(&settings), "{settings:?}");
    }
}

/// A stack with fewer rows than d + 2s has no two shifts one way: it comes to
/// 3w + 4. And with one worker nobody has stopped where a window moved.
#[test]
fn where_the_figures_are_not_reached() {
    let most = [
        (stack(1, 1, 1, 2, 2), [7, 7]),
        (stack(2, 1, 1, 2, 2), [10, 10]),
        (stack(2, 2, 2, 5, 2), [10, 10]),
        (stack(3, 1, 1, 2, 2), [13, 13]),
        (stack(1, 1, 1, 3, 1), [7, 7]),
        (stack(2, 1, 1, 3, 1), [8, 8]),
        (queue(2, 1, 2, 1), [7, 8]),
    ];
    for (settings, expected) in most {
        assert_eq!(most_steps(settings), expected, "{settings:?}");
        assert_ne!(figures(&settings), expected, "{settings:?}");
    }
}

#[test]
fn one_step_less_is_too_few() {
    for settings in [queue(2, 1, 2, 2), stack(2, 1, 1, 3, 2)] {
        let mut at_the_figure = [0, 0];
        every_solo_operation(settings, |words, operation, steps| {
            if steps == solo_steps(&settings, operation.1) {
                at_the_figure[operation.1 as usize] += 1;
                let refused = (Answer::of(SPENT), steps - 1);
                assert_eq!(solo(words, operation, steps - 1, |_| {}), refused);
            }
        });
        assert!(at_the_figure.iter().all(|times| *times > 0), "{settings:?}");
    }
}

/// Calls by which nobody steps: a step of no worker; of an idle worker a step,
/// then a begin; of a busy one, as the solo worker is, a begin.
fn calls_between(words: &mut [u32], (_, side): Operation) {
    let workers = Settings::of_words(words).workers;
    assert_eq!(step(words, workers).number, NO_WORKER);
    for worker in 0..workers {
        let mut expected = BUSY;
        if is_idle(words, worker) {
            assert_eq!(step(words, worker).number, IDLE);
            expected = MOVING;
        }
        assert_eq!(begin(words, (worker, side)).number, expected);
    }
}

#[test]
fn calls_between_its_steps_change_nothing() {
    let pools = [
        queue(1, 1, 2, 3),
        queue(2, 1, 2, 2),
        stack(1, 1, 1, 2, 3),
        stack(2, 1, 1, 3, 2),
    ];
    for settings in pools {
        every_solo_operation(settings, |words, operation, steps| {
            let left = solo_steps(&settings, operation.1);
            let between = |words: &mut [u32]| calls_between(words, operation);
            let (answer, steps_so) = solo(words, operation, left, between);
            assert!(answer.is_final() && steps_so == steps, "{words:?}");
        });
    }
}
