//! Runs from make with size calls and moves among the calls (K8): each call's answer, what
//! the one-at-a-time list is fed with it, and what must hold of it by the words before.

use super::sizes::{set_size, Pair, TWO};
use super::{edition_of, made_in};
use second::phase::Side;
use second::{in_edition, layout, move_0_to_1, move_1_to_0, move_1_to_2, move_2_to_1};
use second::{one_at_a_time, segments_of_subs, stretch_bound};
use second::{Answer, Edition, Event, Fed, Settings};
use second::{EMPTY, FULL, MAY_NOT_MOVE, MOVING, PUT, QUEUE, TAKEN};

pub struct Run {
    pub settings: Settings,
    pub words: Vec<u32>,
    pub events: Vec<Event>,
    /// Steps since the last final answer, and the most of them.
    stretch: u32,
    pub longest: u32,
    /// Takes that passed over more than the pool's own sizes would allow.
    pub above_the_pools: u32,
    /// Takes that passed over as much as their window allows, and that is not 0.
    pub at_the_bound: u32,
}

impl Run {
    pub fn new(edition: Edition, settings: Settings) -> Run {
        Run {
            settings,
            words: made_in(edition, settings),
            events: Vec::new(),
            stretch: 0,
            longest: 0,
            above_the_pools: 0,
            at_the_bound: 0,
        }
    }

    pub fn edition(&self) -> Edition {
        edition_of(&self.words)
    }

    pub fn begin(&mut self, worker: u32, side: Side, value: u32) -> Answer {
        let (edition, words) = (self.edition(), &mut self.words);
        let (answer, value) = match side {
            Side::Put => (in_edition::begin_put(edition, words, worker, value), value),
            Side::Take => (in_edition::begin_take(edition, words, worker), 0),
        };
        self.events.push(Event::Begin {
            worker,
            side,
            value,
            answer,
        });
        answer
    }

    pub fn step(&mut self, worker: u32) -> Answer {
        let edition = self.edition();
        let before = self.words.clone();
        let answer = in_edition::step(edition, &mut self.words, worker);
        let fed = Fed::of(edition, &before, worker, &answer);
        self.events.push(Event::Step {
            worker,
            answer,
            fed,
        });
        match (answer.number, fed) {
            (TAKEN, Fed::Window(size)) => self.note_take(&before, &answer, size.distance_bound()),
            (FULL, _) if edition == TWO => all_after_take_window_held(&before),
            _ => {}
        }
        if !answer.is_refusal() {
            self.stretch = if answer.is_final() {
                0
            } else {
                self.stretch + 1
            };
            self.longest = self.longest.max(self.stretch);
        }
        if self.settings.kind == QUEUE {
            assert!(
                self.stretch <= stretch_bound(&self.settings),
                "{:?}",
                self.words
            );
        }
        answer
    }

    /// To the final answer, which must have this number.
    pub fn finish(&mut self, worker: u32, number: u32) -> Answer {
        let mut answer = self.step(worker);
        while answer.number == MOVING {
            answer = self.step(worker);
        }
        assert_eq!(answer.number, number);
        answer
    }

    pub fn put(&mut self, worker: u32) -> Answer {
        assert_eq!(self.begin(worker, Side::Put, 7).number, MOVING);
        self.finish(worker, PUT)
    }

    pub fn take(&mut self, worker: u32) -> Answer {
        assert_eq!(self.begin(worker, Side::Take, 0).number, MOVING);
        self.finish(worker, TAKEN)
    }

    /// The number that it answers; only edition 2 has the call.
    pub fn set_size(&mut self, size: Pair) -> u32 {
        set_size(&mut self.words, size)
    }

    /// The pool goes on in the words that it is moved to, if it may move.
    pub fn move_to(&mut self, new: Edition) -> bool {
        let mover = match (self.edition(), new) {
            (Edition::Zero, Edition::One) => move_0_to_1,
            (Edition::One, Edition::Zero) => move_1_to_0,
            (Edition::One, Edition::Two) => move_1_to_2,
            (Edition::Two, Edition::One) => move_2_to_1,
            other => panic!("{other:?}"),
        };
        let mut to = vec![0x5eed_5eed; self.settings.needed_words_in(new)];
        match mover(&self.words, &mut to) {
            MOVING => {
                self.words = to;
                true
            }
            refusal => {
                assert_eq!(refusal, MAY_NOT_MOVE);
                false
            }
        }
    }

    fn note_take(&mut self, before: &[u32], answer: &Answer, bound: u32) {
        let passed = passed_over(before, answer.stamp);
        assert!(passed <= bound, "{passed} of {bound}: {before:?}");
        let pools = (self.settings.width - 1) * self.settings.depth;
        self.above_the_pools += u32::from(passed > pools);
        self.at_the_bound += u32::from(passed == bound && bound > 0);
    }

    /// Each take by its own window's sizes, and each full by the places fed with it.
    pub fn stands_one_at_a_time(&self) -> Result<(), String> {
        self.stands_with(u32::MAX)
    }

    /// And no take passes over more than this.
    pub fn stands_with(&self, most_passed: u32) -> Result<(), String> {
        let most_passed = match self.settings.kind {
            QUEUE => most_passed,
            _ => most_passed.min(second::distance_bound(&self.settings)),
        };
        one_at_a_time(&self.settings, most_passed, &self.events).map(|_| ())
    }

    pub fn number_of(&self, number: u32) -> usize {
        let is_it =
            |event: &&Event| matches!(event, Event::Step { answer, .. } if answer.number == number);
        self.events.iter().filter(is_it).count()
    }

    pub fn finals(&self) -> [usize; 4] {
        [PUT, TAKEN, EMPTY, FULL].map(|number| self.number_of(number))
    }
}

/// Held items of a queue with a smaller stamp, spacers too.
fn passed_over(words: &[u32], stamp: u32) -> u32 {
    let (edition, settings) = (edition_of(words), Settings::of_words(words));
    let (cells, _) = words[settings.cells_in(edition)].as_chunks::<{ layout::CELL_WORDS }>();
    let rings = cells.chunks(settings.rows as usize);
    let mut passed = 0;
    for (runs, ring) in segments_of_subs(edition, words).into_iter().zip(rings) {
        for cell in runs.into_iter().flatten().flatten() {
            passed += u32::from(ring[cell as usize][layout::CELL_STAMP] < stamp);
        }
    }
    passed
}

/// "Full means that just before the chosen step every place in the windows after the take
/// window holds an item in the pool": each such row is put and not taken.
fn all_after_take_window_held(words: &[u32]) {
    let mut bottom = words[layout::TAKE_WINDOW];
    for (width, depth) in super::sizes::live(words).into_iter().skip(1) {
        for j in 0..width {
            let [put, taken] = super::sizes::sub(words, j);
            assert!(taken <= bottom && put >= bottom + depth, "{words:?}");
        }
        bottom += depth;
    }
}
