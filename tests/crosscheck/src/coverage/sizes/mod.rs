//! Windows with sizes of their own (K8): how many steps of queues, and how many size calls,
//! came to each corner, in runs from make and in images; how many windows were live, and
//! which sizes those had in which something was put or taken; and which faults of the
//! fitness of edition 2 each call refused.

mod calls;
mod corners;
mod line;

use super::by_origin::ByOrigin;
use super::{Origin, Seen};
use crate::make_up::fit_faults::{Fault, FAULTS};
use crate::take::Take;
use calls::{Given, CALLS};
use corners::CORNERS;
use line::Line;
use second::{layout, Answer, Size, PUT, QUEUE, TAKEN};
use std::collections::{BTreeMap, BTreeSet};

const WIDTHS: u32 = 16;
/// The deepest window there is.
const DEEPEST: u32 = 64;

pub struct Sizes {
    steps: [ByOrigin; CORNERS.len()],
    calls: [ByOrigin; CALLS.len()],
    /// By how many windows are live.
    live: BTreeMap<usize, ByOrigin>,
    /// By the pool's width and that of the window in which something was put or taken.
    widths: BTreeMap<(u32, u32), ByOrigin>,
    /// By the depth of that window.
    depths: BTreeMap<u32, ByOrigin>,
    faults: BTreeSet<(&'static str, &'static str)>,
}

impl Default for Sizes {
    fn default() -> Sizes {
        Sizes {
            steps: [ByOrigin::default(); CORNERS.len()],
            calls: [ByOrigin::default(); CALLS.len()],
            live: BTreeMap::new(),
            widths: BTreeMap::new(),
            depths: BTreeMap::new(),
            faults: BTreeSet::new(),
        }
    }
}

impl Sizes {
    pub(super) fn record(&mut self, seen: &Seen, origin: Origin) {
        if seen.settings.kind != QUEUE {
            return;
        }
        let line = Line::of(seen);
        for (count, corner) in self.steps.iter_mut().zip(&CORNERS) {
            count.add(origin, (corner.is_so)(&line));
        }
        let live = self.live.entry(line.live.len()).or_default();
        live.add(origin, true);
        if [PUT, TAKEN].contains(&seen.answer.number) {
            let key = (seen.settings.width, line.seen_width());
            self.widths.entry(key).or_default().add(origin, true);
            if let Some(Size { depth, .. }) = line.seen_size() {
                self.depths.entry(depth).or_default().add(origin, true);
            }
        }
    }

    /// A size call by the words before it. Without a header nothing is to be seen.
    pub fn record_call(&mut self, size: Size, number: u32, words: &[u32], origin: Origin) {
        if words.len() < layout::HEADER_WORDS {
            return;
        }
        let given = Given {
            size,
            number,
            words,
        };
        for (count, corner) in self.calls.iter_mut().zip(&CALLS) {
            count.add(origin, (corner.is_so)(&given));
        }
    }

    /// A call that was refused with 23 for this alone.
    pub fn record_fault(&mut self, fault: &Fault, call: &'static str) {
        self.faults.insert((fault.name, call));
    }

    /// Prints the counts; what is missing comes back.
    pub fn report(&self) -> Vec<String> {
        let mut missing = Vec::new();
        println!("windows with sizes of their own: steps of queues from make / in images");
        for (count, corner) in self.steps.iter().zip(&CORNERS) {
            report(corner.name, *count, corner.from_make, &mut missing);
        }
        println!("size calls from make / in images");
        for (count, corner) in self.calls.iter().zip(&CALLS) {
            report(corner.name, *count, corner.from_make, &mut missing);
        }
        let live = 1..=layout::MOST_LIVE as usize;
        let counts = live.map(|live| (format!("{live}"), get(&self.live, &live)));
        report_all("live windows", counts, &mut missing);
        for width in 1..=WIDTHS {
            let counts = (1..=width).map(|of| (format!("{of}"), get(&self.widths, &(width, of))));
            let name = format!("windows of width w of a queue of width {width}");
            report_all(&name, counts, &mut missing);
        }
        let met = |of: fn(&ByOrigin) -> u64| {
            let depths = 1..=DEEPEST;
            depths
                .filter(|depth| of(&get(&self.depths, depth)) > 0)
                .count()
        };
        let (from_make, in_images) = (met(|count| count.from_make), met(|count| count.in_images));
        println!("windows of {from_make} depths from make and {in_images} in images, of {DEEPEST}");
        report(
            "windows of depth 1",
            get(&self.depths, &1),
            true,
            &mut missing,
        );
        let deepest = get(&self.depths, &DEEPEST);
        report("windows of depth 64", deepest, true, &mut missing);
        self.report_faults(&mut missing);
        missing
    }

    fn report_faults(&self, missing: &mut Vec<String>) {
        let mut all = 0;
        for fault in &FAULTS {
            for call in crate::cases::fit_faults::CALLS {
                all += 1;
                if !self.faults.contains(&(fault.name, call)) {
                    missing.push(format!("{call} refused with 23 for {}", fault.name));
                }
            }
        }
        let met = self.faults.len();
        println!("{met} of {all} refusals with 23 for one fault of edition 2 alone, by call");
    }
}

fn get<K: Ord>(counts: &BTreeMap<K, ByOrigin>, key: &K) -> ByOrigin {
    counts.get(key).copied().unwrap_or_default()
}

/// In images always, and in runs from make where they come to it.
fn report(name: &str, count: ByOrigin, from_make: bool, missing: &mut Vec<String>) {
    println!("{name:47} {count}");
    if from_make && count.from_make == 0 {
        missing.push(format!("{name}, in a run from make"));
    }
    if count.in_images == 0 {
        missing.push(format!("{name}, in an image"));
    }
}

fn report_all(
    name: &str,
    counts: impl Iterator<Item = (String, ByOrigin)>,
    missing: &mut Vec<String>,
) {
    let mut parts = Vec::new();
    for (of, count) in counts {
        parts.push(format!("{of}: {count}"));
        for (count, origin) in [
            (count.from_make, "from make"),
            (count.in_images, "in images"),
        ] {
            if count == 0 {
                missing.push(format!("{name}, {of} {origin}"));
            }
        }
    }
    println!("{name} {}", parts.join(", "));
}

impl Line<'_> {
    /// Of a take, spacers too.
    fn passed_over(&self) -> u32 {
        let answer = Answer {
            stamp: self.stamp,
            ..Answer::of(TAKEN)
        };
        Take::of(self.before, &answer).passed_over
    }
}
