//! The checker itself: histories that it must place, some of them only by
//! going back, and histories that it must not.

mod common;

use common::{put_answer, queue, stack, taken_answer};
use second::phase::Side;
use second::{closer_distance_bound, distance_bound, worst_distance};
use second::{one_at_a_time, Answer, AtLast, Event, Fed, Settings};
use second::{EMPTY, FULL, MOVING, SPENT};

fn begin_put(worker: u32, value: u32) -> Event {
    Event::Begin {
        worker,
        side: Side::Put,
        value,
        answer: Answer::of(MOVING),
    }
}

fn begin_take(worker: u32) -> Event {
    Event::Begin {
        worker,
        side: Side::Take,
        value: 0,
        answer: Answer::of(MOVING),
    }
}

fn moves(worker: u32) -> Event {
    ends(worker, Answer::of(MOVING))
}

fn ends(worker: u32, answer: Answer) -> Event {
    Event::Step {
        worker,
        answer,
        fed: Fed::Nothing,
    }
}

fn put(stamp: u32, value: u32) -> Answer {
    put_answer(value, 0, 1, stamp)
}

fn taken(stamp: u32, value: u32, distance: u32) -> Answer {
    taken_answer(value, 0, 1, stamp, distance)
}

/// Where the operations stand by demand 3, in the order in which they finished.
fn places(settings: Settings, events: &[Event]) -> Option<Vec<usize>> {
    let placed = one_at_a_time(&settings, distance_bound(&settings), events);
    placed.ok().map(|placed| placed.events)
}

fn small() -> Settings {
    queue(2, 1, 2, 3)
}

#[test]
fn puts_and_takes_at_their_last_steps() {
    let events = [
        begin_put(0, 5),
        begin_take(1),
        moves(1),
        moves(0),
        ends(0, put(1, 5)),
        moves(1),
        ends(1, taken(1, 5, 0)),
    ];
    let placed = one_at_a_time(&small(), 1, &events).expect("it has places");
    assert_eq!(placed.events, [4, 6]);
    assert_eq!(placed.returns, 0);
}

#[test]
fn a_put_that_must_stand_before_its_last_step() {
    let events = [
        begin_put(0, 5),
        begin_take(1),
        moves(0),
        ends(1, taken(1, 5, 0)),
        ends(0, put(1, 5)),
    ];
    let placed = one_at_a_time(&small(), 1, &events).expect("it has places");
    assert_eq!(placed.events, [3, 2]);
    assert!(placed.returns > 0);
}

#[test]
fn a_take_that_must_stand_before_its_last_step() {
    // Worker 1 takes stamp 1 at distance 0 after worker 0 took stamp 2 at
    // distance 0: the take of stamp 1 came first.
    let events = [
        begin_put(0, 5),
        ends(0, put(1, 5)),
        begin_put(0, 6),
        ends(0, put(2, 6)),
        begin_take(1),
        moves(1),
        begin_take(0),
        ends(0, taken(2, 6, 0)),
        ends(1, taken(1, 5, 0)),
    ];
    assert_eq!(places(small(), &events), Some(vec![1, 3, 7, 5]));
    let mut other = events;
    other[7] = ends(0, taken(2, 6, 1));
    assert_eq!(places(small(), &other), Some(vec![1, 3, 7, 8]));
}

#[test]
fn choices_far_apart() {
    // The first put must stand early for a take long after it, with other
    // choices between that cannot help.
    let mut events = vec![begin_put(0, 5), moves(0)];
    for stamp in 2..12 {
        events.extend([begin_put(1, 6), moves(1), moves(1), ends(1, put(stamp, 6))]);
        events.extend([begin_take(1), moves(1), ends(1, taken(stamp, 6, 1))]);
    }
    events.push(ends(0, put(1, 5)));
    let placed = places(small(), &events).expect("it has places");
    assert_eq!(placed.last(), Some(&1));
    let finish = events.len() - 1;
    events[finish] = ends(0, put(12, 5));
    assert_eq!(places(small(), &events), None);
}

#[test]
fn an_empty_in_the_middle_of_its_steps() {
    let around = |answer: Answer, between: usize| {
        let mut events = vec![begin_put(0, 5), ends(0, put(1, 5)), begin_take(2), moves(2)];
        events.extend([begin_take(1), ends(1, taken(1, 5, 0))]);
        events.extend(vec![moves(2); between]);
        events.extend([begin_put(1, 6), ends(1, put(2, 6)), ends(2, answer)]);
        events
    };
    let placed = one_at_a_time(&small(), 1, &around(Answer::of(EMPTY), 1)).expect("it has places");
    assert_eq!(placed.events, [1, 5, 8, 6]);
    assert_eq!(placed.unchanging.len(), 1);
    assert_eq!(placed.unchanging[0].at_last, AtLast::Cannot);
    // Without a step of its own there, it was never empty in its steps.
    assert_eq!(places(small(), &around(Answer::of(EMPTY), 0)), None);
    // Full is for a put alone.
    assert_eq!(places(small(), &around(Answer::of(FULL), 1)), None);
}

#[test]
fn a_full_needs_items() {
    // w 1, d 1, R 2: a queue is full from w x (R - d) = 1 item, a stack from
    // w x (R - s + 1) = 2.
    let run = |puts: u32| {
        let mut events = Vec::new();
        for stamp in 1..=puts {
            events.extend([begin_put(0, 9), ends(0, put(stamp, 9))]);
        }
        events.extend([begin_put(0, 9), moves(0), ends(0, Answer::of(FULL))]);
        events
    };
    for (settings, least) in [(queue(1, 1, 2, 1), 1), (stack(1, 1, 1, 2, 1), 2)] {
        for puts in 0..4 {
            let placed = places(settings, &run(puts)).is_some();
            assert_eq!(placed, puts >= least, "{settings:?}, {puts} items");
        }
    }
}

/// So many puts, then a take of this stamp at this distance.
fn a_take_of(items: u32, stamp: u32, distance: u32) -> Vec<Event> {
    let values: Vec<u32> = (1..=items).collect();
    a_take_among(&values, stamp, distance)
}

/// Puts of these values, then a take of this stamp at this distance.
fn a_take_among(values: &[u32], stamp: u32, distance: u32) -> Vec<Event> {
    let mut events = Vec::new();
    for (put_stamp, value) in (1..).zip(values) {
        events.extend([begin_put(0, *value), ends(0, put(put_stamp, *value))]);
    }
    // An item that is not there is begun with no value.
    let value = values.get(stamp as usize - 1).copied().unwrap_or(0);
    events.extend([begin_take(0), ends(0, taken(stamp, value, distance))]);
    events
}

#[test]
fn distances_and_their_bound() {
    // Queue w 2, d 1: at most 1 older. Stack w 2, d 1, s 1: at most 4 newer.
    let of_queue =
        |items, stamp, distance| places(small(), &a_take_of(items, stamp, distance)).is_some();
    assert!(of_queue(3, 1, 0) && of_queue(3, 2, 1));
    assert!(!of_queue(3, 3, 2) && !of_queue(3, 2, 0) && !of_queue(3, 4, 0));
    let pile = stack(2, 1, 1, 2, 1);
    let of_stack =
        |items, stamp, distance| places(pile, &a_take_of(items, stamp, distance)).is_some();
    assert!(of_stack(6, 6, 0) && of_stack(6, 2, 4));
    assert!(!of_stack(6, 1, 5) && !of_stack(6, 1, 0) && !of_stack(6, 7, 0));
}

#[test]
fn a_lower_number_allows_less() {
    // Stack w 2, d 1, s 1, R 2: demand 3 allows 4 newer ones, K14 3, and more
    // than 2 are never passed.
    let pile = stack(2, 1, 1, 2, 1);
    let bounds = [distance_bound, closer_distance_bound, worst_distance];
    for (bound, most) in bounds.into_iter().zip([4, 3, 2]) {
        for distance in 0..6 {
            let events = a_take_of(6, 6 - distance, distance);
            let placed = one_at_a_time(&pile, bound(&pile), &events).is_ok();
            assert_eq!(placed, distance <= most, "{distance} with {most} allowed");
        }
    }
}

/// Whether the list allows it where a take may pass over so many.
fn allowed(settings: Settings, most_passed: u32, events: &[Event]) -> bool {
    one_at_a_time(&settings, most_passed, events).is_ok()
}

#[test]
fn the_limit_counts_spacers() {
    // Queue w 2, d 1: at most 1 older; stack w 2, d 1, s 1: at most 4 newer. All
    // passed over are spacers, so that 0 is reported whatever their number.
    let pile = stack(2, 1, 1, 2, 1);
    for taken_value in [0, 9] {
        for passed in 0..8 {
            let mut values = vec![0; passed];
            values.push(taken_value);
            let older = a_take_among(&values, passed as u32 + 1, 0);
            assert_eq!(places(small(), &older).is_some(), passed <= 1);
            values.rotate_right(1);
            let newer = a_take_among(&values, 1, 0);
            assert_eq!(places(pile, &newer).is_some(), passed <= 4);
            for bound in [distance_bound, closer_distance_bound, worst_distance] {
                let most = bound(&pile);
                assert_eq!(allowed(pile, most, &newer), passed as u32 <= most);
            }
        }
    }
}

#[test]
fn the_reported_number_skips_spacers() {
    // Of five items the middle one is taken, beside spacers and others.
    let (line, pile) = (queue(3, 1, 2, 1), stack(2, 1, 1, 2, 1));
    for bits in 0..32_u32 {
        let values: Vec<u32> = (0..5).map(|k| (bits >> k & 1) * (k + 6)).collect();
        let older = (bits & 3).count_ones();
        let newer = (bits >> 3).count_ones();
        for distance in 0..4 {
            let events = a_take_among(&values, 3, distance);
            assert_eq!(places(line, &events).is_some(), distance == older);
            assert_eq!(places(pile, &events).is_some(), distance == newer);
            // Two are passed over, whatever they are.
            assert!(!allowed(line, 1, &events) && !allowed(pile, 1, &events));
        }
    }
}

#[test]
fn values_and_stamps_are_those_put() {
    let run = |put_answer: Answer, taken_answer: Answer| {
        let events = [
            begin_put(0, 5),
            ends(0, put_answer),
            begin_take(0),
            ends(0, taken_answer),
        ];
        places(small(), &events).is_some()
    };
    assert!(run(put(1, 5), taken(1, 5, 0)));
    assert!(!run(put(1, 6), taken(1, 5, 0)));
    assert!(!run(put(2, 5), taken(2, 5, 0)));
    assert!(!run(put(1, 5), taken(1, 6, 0)));
    assert!(!run(put(1, 5), taken(2, 5, 0)));
}

#[test]
fn refused_and_unfinished_have_no_place() {
    let refused = Event::Begin {
        worker: 7,
        side: Side::Put,
        value: 4,
        answer: Answer::of(SPENT),
    };
    let events = [refused, begin_put(0, 5), moves(0), begin_take(1), moves(1)];
    assert_eq!(places(small(), &events), Some(vec![]));
    assert_eq!(places(small(), &[begin_put(0, 5), begin_put(0, 5)]), None);
    assert_eq!(places(small(), &[moves(0)]), None);
    assert_eq!(places(small(), &[begin_put(3, 5)]), None);
}
