//! Answers from confirm, one at a time. Behind the confirm an item may come, or
//! room, and then an empty or a full cannot stand at its last step, whatever
//! steps are chosen for the others. With one sub nothing is behind it.

mod common;

use common::{made, queue, stack};
use second::phase::Side;
use second::{begin_put, begin_take, one_at_a_time, step, worst_distance};
use second::{Answer, AtLast, Edition, Event, Fed, Settings};
use second::{EMPTY, FULL, MOVING, PUT, TAKEN};

/// A run, with its calls and answers.
struct Run {
    settings: Settings,
    words: Vec<u32>,
    events: Vec<Event>,
}

impl Run {
    fn new(settings: Settings) -> Run {
        Run {
            settings,
            words: made(settings),
            events: Vec::new(),
        }
    }

    fn begin(&mut self, worker: u32, side: Side) {
        let answer = match side {
            Side::Put => begin_put(&mut self.words, worker, 7),
            Side::Take => begin_take(&mut self.words, worker),
        };
        let value = match side {
            Side::Put => 7,
            Side::Take => 0,
        };
        self.events.push(Event::Begin {
            worker,
            side,
            value,
            answer,
        });
    }

    fn step(&mut self, worker: u32) -> Answer {
        let before = self.words.clone();
        let answer = step(&mut self.words, worker);
        let fed = Fed::of(Edition::CURRENT, &before, worker, &answer);
        self.events.push(Event::Step {
            worker,
            answer,
            fed,
        });
        answer
    }

    /// Steps a worker to its final answer, which must have this number.
    fn finish(&mut self, worker: u32, number: u32) {
        let mut answer = self.step(worker);
        while answer.number == MOVING {
            answer = self.step(worker);
        }
        assert_eq!(answer.number, number);
    }

    fn whole(&mut self, worker: u32, side: Side, number: u32) {
        self.begin(worker, side);
        self.finish(worker, number);
    }

    /// Of each empty and full, its number and whether it can stand last.
    fn unchanging(&self) -> Vec<(u32, AtLast)> {
        let worst = worst_distance(&self.settings);
        let placed = one_at_a_time(&self.settings, worst, &self.events).expect("it has places");
        assert_eq!(placed.returns, 0);
        let unchanging = placed.unchanging.iter();
        unchanging.map(|one| (one.number, one.at_last)).collect()
    }
}

/// Worker 0's operation has confirmed sub 0. Then worker 2, whose index is 0,
/// does the other thing there, whole, and worker 0 ends.
fn behind_the_confirm(mut run: Run, side: Side, steps: u32, number: u32) -> Run {
    run.begin(0, side);
    for _ in 0..steps {
        assert_eq!(run.step(0).number, MOVING);
    }
    match side {
        Side::Put => run.whole(2, Side::Take, TAKEN),
        Side::Take => run.whole(2, Side::Put, PUT),
    }
    run.finish(0, number);
    run
}

#[test]
fn an_empty_of_a_queue() {
    // Window, two reads, one confirm of two.
    let run = behind_the_confirm(Run::new(queue(2, 1, 2, 3)), Side::Take, 4, EMPTY);
    assert_eq!(run.unchanging(), [(EMPTY, AtLast::Cannot)]);
}

#[test]
fn an_empty_of_a_stack() {
    // Window, two reads, shift, one confirm of two.
    let run = behind_the_confirm(Run::new(stack(2, 1, 1, 2, 3)), Side::Take, 5, EMPTY);
    assert_eq!(run.unchanging(), [(EMPTY, AtLast::Cannot)]);
}

#[test]
fn a_full_of_a_stack() {
    let mut run = Run::new(stack(2, 1, 1, 2, 3));
    for _ in 0..4 {
        run.whole(1, Side::Put, PUT);
    }
    // Window, two reads, shift, one confirm of two.
    let run = behind_the_confirm(run, Side::Put, 5, FULL);
    assert_eq!(run.unchanging(), [(FULL, AtLast::Cannot)]);
}

#[test]
fn with_nothing_behind_it() {
    for settings in [queue(2, 1, 2, 3), stack(2, 1, 1, 2, 3)] {
        let mut run = Run::new(settings);
        run.whole(0, Side::Take, EMPTY);
        run.whole(2, Side::Put, PUT);
        assert_eq!(run.unchanging(), [(EMPTY, AtLast::Can)]);
    }
}

#[test]
fn a_take_that_can_stand_before_the_empty() {
    // The item that came behind the confirm is taken by a take whose own steps
    // are on both sides of the empty's last: placed at its first, it leaves the
    // list empty there.
    let mut run = Run::new(queue(2, 1, 2, 3));
    run.begin(0, Side::Take);
    for _ in 0..4 {
        assert_eq!(run.step(0).number, MOVING);
    }
    run.whole(2, Side::Put, PUT);
    run.begin(2, Side::Take);
    assert_eq!(run.step(2).number, MOVING);
    run.finish(0, EMPTY);
    run.finish(2, TAKEN);
    assert_eq!(run.unchanging(), [(EMPTY, AtLast::Can)]);
}

#[test]
fn one_sub() {
    for settings in [queue(1, 1, 2, 2), stack(1, 1, 1, 2, 2)] {
        let mut run = Run::new(settings);
        run.begin(0, Side::Take);
        // To its confirm, which is one step.
        let steps = if settings.kind == second::QUEUE { 2 } else { 3 };
        for _ in 0..steps {
            assert_eq!(run.step(0).number, MOVING);
        }
        run.whole(1, Side::Put, PUT);
        // The confirm has something left: the take starts anew, and finds it.
        run.finish(0, TAKEN);
        run.whole(0, Side::Take, EMPTY);
        assert_eq!(run.unchanging(), [(EMPTY, AtLast::Can)]);
    }
}
