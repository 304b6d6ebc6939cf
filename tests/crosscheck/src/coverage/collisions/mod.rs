//! Collisions (K5): for each kind, how many calls came to each corner of the ninth
//! words, in runs from make and in images; and by call, how often the edition and
//! the number of words were what decides.

mod corners;
mod lengths;

use super::by_origin::ByOrigin;
use super::numbers::{DISPATCH, SET_SIZE};
use super::phases::kind_name;
use super::{Origin, Seen};
use corners::CORNERS;
use lengths::{Given, BY_EDITION, BY_LENGTH};
use second::{layout, Settings, QUEUE, STACK};
use std::collections::BTreeMap;

const MAKE: &str = "make";
/// The calls that ask for a fit pool.
const OF_POOL: [&str; 5] = ["begin put", "begin take", "step", SET_SIZE, DISPATCH];

#[derive(Default)]
pub struct Collisions {
    /// By kind.
    corners: BTreeMap<u32, [ByOrigin; CORNERS.len()]>,
    /// By name of the corner, kind, and call.
    given: BTreeMap<(&'static str, u32, &'static str), u64>,
}

impl Collisions {
    pub(super) fn record(&mut self, seen: &Seen, origin: Origin) {
        let corners = self.corners.entry(seen.settings.kind).or_default();
        for (count, corner) in corners.iter_mut().zip(&CORNERS) {
            count.add(origin, (corner.is_so)(seen));
        }
    }

    /// A make by its settings, how many words it got, and its answer's number.
    pub fn record_make(&mut self, settings: Settings, words: &[u32], number: u32) {
        let given = Given {
            settings,
            words,
            number,
        };
        self.meet(MAKE, &given, &BY_LENGTH);
    }

    /// Another call by the words before it. Without a word 11 nothing is to be seen.
    pub fn record_call(&mut self, call: &'static str, words: &[u32], number: u32) {
        if words.len() < layout::HEADER_WORDS {
            return;
        }
        let given = Given {
            settings: Settings::of_words(words),
            words,
            number,
        };
        self.meet(call, &given, &BY_LENGTH);
        self.meet(call, &given, &BY_EDITION);
    }

    fn meet(&mut self, call: &'static str, given: &Given, corners: &[lengths::Corner]) {
        for (name, _) in corners.iter().filter(|(_, is_so)| is_so(given)) {
            let key = (*name, given.settings.kind, call);
            *self.given.entry(key).or_default() += 1;
        }
    }

    /// Prints the counts; what is missing comes back.
    pub fn report(&self) -> Vec<String> {
        let mut missing = Vec::new();
        println!("failed commits: calls from make / in images");
        for kind in [QUEUE, STACK] {
            self.report_corners(kind, &mut missing);
        }
        println!("editions and lengths, by call");
        for kind in [QUEUE, STACK] {
            for (name, _) in BY_LENGTH {
                self.report_given(name, kind, &[&[MAKE], &OF_POOL[..]].concat(), &mut missing);
            }
            for (name, _) in BY_EDITION {
                self.report_given(name, kind, &OF_POOL, &mut missing);
            }
        }
        missing
    }

    fn report_corners(&self, kind: u32, missing: &mut Vec<String>) {
        let counts = self.corners.get(&kind).copied().unwrap_or_default();
        for (count, corner) in counts.iter().zip(&CORNERS) {
            if kind == QUEUE && !corner.of_queues {
                continue;
            }
            let name = format!("{}, {}", kind_name(kind), corner.name);
            println!("{name:53} {count}");
            if corner.from_make && count.from_make == 0 {
                missing.push(format!("{name}, in a run from make"));
            }
            if count.in_images == 0 {
                missing.push(format!("{name}, in an image"));
            }
        }
    }

    fn report_given(
        &self,
        corner: &'static str,
        kind: u32,
        calls: &[&'static str],
        missing: &mut Vec<String>,
    ) {
        let name = format!("{}, {corner}", kind_name(kind));
        let mut parts = Vec::new();
        for call in calls {
            let count = self.given.get(&(corner, kind, call)).copied().unwrap_or(0);
            parts.push(format!("{call}: {count}"));
            if count == 0 {
                missing.push(format!("{name}, {call}"));
            }
        }
        println!("{name:53} {}", parts.join(", "));
    }
}
