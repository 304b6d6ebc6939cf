//! Spacers (K4), items of value 0: a distance does not count them, a spacer's own
//! take has a distance too, and they are passed over like all items. The checker's
//! side of it is in one_at_a_time.rs.

mod common;

use common::passed::{passed_over, queue_at_the_bound, small_stack, stack_at_the_bound};
use common::{finish, made, put, queue, stack, take, taken_answer, Numbers};
use second::{begin_put, begin_take, distance_bound, step, worst_distance};
use second::{Answer, Settings, IDLE, MOVING, SPACER, TAKEN};

/// The last step of a take, which passes over so many items as the exact figure
/// says: its distance.
fn distance_at_the_bound(words: &mut [u32], worker: u32, taken: u32) -> u32 {
    let settings = Settings::of_words(words);
    let before = words.to_vec();
    let (answer, steps) = finish(words, worker);
    assert_eq!((answer.number, answer.value, steps), (TAKEN, taken, 1));
    let passed = passed_over(&before, answer.stamp).len() as u32;
    assert_eq!(passed, worst_distance(&settings), "{settings:?}");
    answer.distance
}

/// Of every small width and depth; the values from `value`, by the put's number.
fn queues(value: impl Fn(u32) -> u32, taken: u32, distance: impl Fn(u32) -> u32) {
    for (width, depth) in (1..=4).flat_map(|w| (1..=3).map(move |d| (w, d))) {
        let settings = queue(width, depth, 2 * depth, 1);
        let bound = (width - 1) * depth;
        assert_eq!(distance_bound(&settings), bound);
        let passed: Vec<u32> = (0..bound).map(&value).collect();
        let mut words = queue_at_the_bound(settings, &passed, taken);
        let reported = distance_at_the_bound(&mut words, 0, taken);
        assert_eq!(reported, distance(bound), "{settings:?}");
    }
}

#[test]
fn a_queues_take_at_the_bound_reports_no_spacer() {
    queues(|_| SPACER, 7, |_| 0);
    // Every second one, from the first on.
    queues(|k| k % 2, 7, |bound| bound / 2);
    queues(|k| (k + 1) % 2 * 9, 7, |bound| bound.div_ceil(2));
    queues(|k| k + 1, 7, |bound| bound);
    queues(|_| u32::MAX, 7, |bound| bound);
}

#[test]
fn a_stacks_take_at_the_bound_reports_no_spacer() {
    let by_hand = [
        ([SPACER, SPACER], 0),
        ([7, SPACER], 1),
        ([SPACER, 8], 1),
        ([7, 8], 2),
        ([1, u32::MAX], 2),
    ];
    assert_eq!(worst_distance(&small_stack()), 2);
    for (passed, distance) in by_hand {
        for taken in [SPACER, 5] {
            let mut words = stack_at_the_bound(passed, taken);
            let reported = distance_at_the_bound(&mut words, 1, taken);
            assert_eq!(reported, distance, "{passed:?}, {taken}");
        }
    }
}

#[test]
fn a_spacers_own_take_has_a_distance() {
    queues(|k| k + 1, SPACER, |bound| bound);
    queues(|k| k % 2, SPACER, |bound| bound / 2);
    queues(|_| SPACER, SPACER, |_| 0);
    let mut words = made(queue(2, 2, 4, 2));
    put(&mut words, 0, 5);
    put(&mut words, 0, 6);
    put(&mut words, 1, SPACER);
    assert_eq!(take(&mut words, 1).0, taken_answer(SPACER, 1, 1, 3, 2));
    let mut words = stack_at_the_bound([7, 8], SPACER);
    assert_eq!(finish(&mut words, 1).0, taken_answer(SPACER, 1, 1, 1, 2));
}

/// The same calls at random with these values: the answers to all steps, without
/// value and distance, each with how many items it passed over; and the sum of all
/// distances.
fn at_random(settings: Settings, value: impl Fn(u32) -> u32) -> (Vec<(Answer, usize)>, u32) {
    let mut numbers = Numbers(7);
    let mut words = made(settings);
    let (mut answers, mut distances) = (Vec::new(), 0);
    for call in 1..20_000 {
        let worker = numbers.below(settings.workers as usize) as u32;
        let is_put = numbers.below(2) == 0;
        let before = words.clone();
        let answer = step(&mut words, worker);
        let mut passed = Vec::new();
        match answer.number {
            IDLE if is_put => {
                let begun = begin_put(&mut words, worker, value(call));
                assert_eq!(begun, Answer::of(MOVING));
            }
            IDLE => assert_eq!(begin_take(&mut words, worker), Answer::of(MOVING)),
            TAKEN => passed = passed_over(&before, answer.stamp),
            _ => {}
        }
        let reported = passed.iter().filter(|value| **value != SPACER).count();
        assert_eq!(answer.distance, reported as u32, "{settings:?}");
        distances += answer.distance;
        let bare = Answer {
            value: 0,
            distance: 0,
            ..answer
        };
        answers.push((bare, passed.len()));
    }
    (answers, distances)
}

#[test]
fn runs_at_random_by_their_share_of_spacers() {
    for settings in [queue(3, 2, 8, 4), stack(3, 2, 1, 8, 4)] {
        let (answers, all) = at_random(settings, |call| call);
        let (answers_half, half) = at_random(settings, |call| call / 5 % 2);
        let (answers_none, none) = at_random(settings, |_| SPACER);
        let passing = answers.iter().filter(|(_, passed)| *passed > 0).count();
        assert!(passing > 200, "{settings:?}: {passing}");
        // In the answers values change nothing but themselves and the distance. The
        // lists are too long to print.
        assert!(answers_half == answers, "{settings:?}");
        assert!(answers_none == answers, "{settings:?}");
        assert!(0 < half && half < all, "{settings:?}: {half} of {all}");
        assert_eq!(none, 0, "{settings:?}");
    }
}
