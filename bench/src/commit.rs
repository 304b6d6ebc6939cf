//! The last step of a take, its commit: made, and lost.

use crate::again::{walk_again, Again};
use crate::image::spread;
use crate::side::Compiled;
use crate::spacers::value;
use crate::walks::{by_rows, in_runs, read_cells, read_words, Held};
use second::layout::SEEN;
use second::{Answer, Settings, MOVING, QUEUE, SPACER, TAKEN};
use sides::{Call, COMPILED, SECOND};

/// The step that takes an item where `before_commit` leads.
pub const STEP: Call = Call::Step { worker: 0 };

/// The pool once worker 0 has begun a take and made all of its steps but the last.
pub fn before_commit(mut words: Vec<u32>) -> Vec<u32> {
    SECOND.call(&mut words, Call::BeginTake { worker: 0 });
    loop {
        let mut after = words.clone();
        match SECOND.call(&mut after, STEP).number {
            TAKEN => return words,
            number => assert!(number == MOVING, "answered {number}"),
        }
        words = after;
    }
}

/// A pool before the last step of a take, and what can be made of it again and again.
pub struct Commit {
    settings: Settings,
    words: Vec<u32>,
    /// The stamp that is taken.
    stamp: u32,
    taken: Again,
    lost: Again,
}

impl Commit {
    /// So many of a hundred items are spacers.
    pub fn of(settings: Settings, items: u32, share: u32) -> Commit {
        let words = before_commit(spread(&settings, items, share));
        let answer = step(&words);
        let stamp = answer.stamp;
        check(&Held::of(&settings, &words), &answer, items, share);
        let mut late = words.clone();
        late[settings.workers_at() + SEEN] -= 1;
        assert!(step(&late).number == MOVING);
        Commit {
            settings,
            stamp,
            taken: Again::of(&words, STEP),
            lost: Again::of(&late, STEP),
            words,
        }
    }

    pub fn take(&mut self, calls: u32) {
        let (side, words) = (&mut Compiled::default(), &mut self.words);
        self.taken.make(side, words, calls);
    }

    /// The same step, but that the worker saw what was there before another's take.
    pub fn lose(&mut self, calls: u32) {
        let seen = self.settings.workers_at() + SEEN;
        let (side, words) = (&mut Compiled::default(), &mut self.words);
        words[seen] -= 1;
        self.lost.make(side, words, calls);
        words[seen] += 1;
    }

    pub fn walk(&self, walk: impl Fn(&Held, u32) -> u32, calls: u32) {
        let held = Held::of(&self.settings, &self.words);
        walk_again(&held, |held| walk(held, self.stamp), calls);
    }
}

/// The second implementation's answer. The compiled library's is checked to be the
/// same, and so are the words that it leaves.
fn step(words: &[u32]) -> Answer {
    let (mut second, mut compiled) = (words.to_vec(), words.to_vec());
    let answer = SECOND.call(&mut second, STEP);
    assert!(COMPILED.call(&mut compiled, STEP) == answer && compiled == second);
    answer
}

/// About half of the items are passed over. Every way to count gives the distance, and
/// every way to read the sum of all values and stamps.
fn check(held: &Held, answer: &Answer, items: u32, share: u32) {
    let stamp = answer.stamp;
    let passed = if held.kind == QUEUE {
        1..stamp
    } else {
        stamp + 1..items + 1
    };
    assert!(answer.number == TAKEN && passed.len().abs_diff(items as usize / 2) <= 1);
    let items = (1..=items).map(|number| [value(number, share), number]);
    let counts = items
        .clone()
        .map(|[value, number]| u32::from(value != SPACER && passed.contains(&number)));
    let distances = [answer.distance, by_rows(held, stamp), in_runs(held, stamp)];
    assert!(distances == [counts.sum(); 3]);
    let sum = items.flatten().sum();
    assert!([read_cells(held), read_words(held)] == [sum; 2]);
}
