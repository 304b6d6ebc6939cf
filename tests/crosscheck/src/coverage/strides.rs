//! Strides: for each width, which were made, with which of them a commit failed,
//! and which were refused for nothing else; how a commit that failed hops; and the
//! first words of run files.

use super::counts::Counts;
use super::{fitness, Seen};
use crate::make_up::settings::STRIDES;
use second::phase::Side;
use second::{layout, Settings, MOVING, NO_WORKER, OFF_LIMITS, QUEUE, TOO_SHORT};
use std::collections::BTreeSet;
use std::ops::Range;

/// What comes of the strides of a width, 0 to w - 1.
const WITHIN: [&str; 5] = [
    "made",
    "queue put lost",
    "queue take lost",
    "stack put lost",
    "stack take lost",
];
/// What comes of those from w on.
const ABOVE: [&str; 3] = ["22 by make", "23 for word 10", "23 before 21"];
/// Those of run files: bits 20-23 of the first word, and above them four spare.
const IN_FILES: &str = "of run files";
const IN_FIRST_WORD: Range<u32> = 0..16;
const TOP_BITS: usize = 256;

type Hop = (&'static str, fn(&Settings, u32) -> bool);

/// By the settings and the index before.
const HOPS: [Hop; 4] = [
    ("a hop by a stride of 0", |settings, _| settings.stride == 0),
    ("a hop by a stride of 1", |settings, _| settings.stride == 1),
    ("a hop by more than 1", |settings, _| settings.stride > 1),
    ("a hop by more than 1 comes round", |settings, index| {
        settings.stride > 1 && index + settings.stride >= settings.width
    }),
];

#[derive(Default)]
pub struct Strides {
    /// What came of which width and stride.
    met: BTreeSet<(&'static str, u32, u32)>,
    hops: Counts<{ HOPS.len() }>,
    /// Bits 20-27 of the first words of run files.
    top_bits: BTreeSet<u32>,
}

impl Strides {
    pub fn record_make(&mut self, settings: &Settings, number: u32) {
        let by_one = Settings {
            stride: 0,
            ..*settings
        };
        match number {
            MOVING => self.meet("made", settings),
            OFF_LIMITS if by_one.within_limits() => self.meet("22 by make", settings),
            _ => {}
        }
    }

    /// Words that a call refused with 23: for the stride alone, if with a stride of
    /// 0 they are fit, or too few.
    pub fn record_unfit(&mut self, words: &[u32]) {
        let mut by_one = words.to_vec();
        by_one[layout::STRIDE] = 0;
        match fitness(&by_one) {
            NO_WORKER => self.meet("23 for word 10", &Settings::of_words(words)),
            TOO_SHORT => self.meet("23 before 21", &Settings::of_words(words)),
            _ => {}
        }
    }

    pub(super) fn record(&mut self, seen: &Seen) {
        let Some(side) = seen.failed_commit() else {
            return;
        };
        let settings = &seen.settings;
        let lost = match (settings.kind, side) {
            (QUEUE, Side::Put) => "queue put lost",
            (QUEUE, Side::Take) => "queue take lost",
            (_, Side::Put) => "stack put lost",
            (_, Side::Take) => "stack take lost",
        };
        self.meet(lost, settings);
        let index = seen.worker[layout::INDEX];
        self.hops.add(HOPS.map(|(_, is_so)| is_so(settings, index)));
    }

    /// A run file of a pool of this width, with these bits 20-27 of its first word.
    pub fn record_file(&mut self, width: u32, bits: u32) {
        self.top_bits.insert(bits);
        if IN_FIRST_WORD.contains(&bits) {
            self.met.insert((IN_FILES, width, bits));
        }
    }

    fn meet(&mut self, what: &'static str, settings: &Settings) {
        if STRIDES.contains(&settings.stride) {
            self.met.insert((what, settings.width, settings.stride));
        }
    }

    /// Prints how many strides of each width were met; what is missing comes back.
    pub fn report(&self) -> Vec<String> {
        println!("strides by width, and of how many:");
        let mut missing = Vec::new();
        for what in WITHIN {
            self.report_strides(what, |width| 0..width, &mut missing);
        }
        for what in ABOVE {
            self.report_strides(what, |width| width..STRIDES.end, &mut missing);
        }
        // Without a lister there are no run files.
        if !self.top_bits.is_empty() {
            self.report_strides(IN_FILES, |_| IN_FIRST_WORD, &mut missing);
            let values = self.top_bits.len();
            println!("{values:9} values of bits 20-27 of a first word");
            if values < TOP_BITS {
                missing.push("a value of bits 20-27 of a first word".to_string());
            }
        }
        missing.extend(self.hops.report(HOPS));
        missing
    }

    fn report_strides(
        &self,
        what: &'static str,
        strides: impl Fn(u32) -> Range<u32>,
        missing: &mut Vec<String>,
    ) {
        let mut parts = Vec::new();
        for width in 1..=16 {
            let (met, not): (Vec<u32>, Vec<u32>) =
                strides(width).partition(|stride| self.met.contains(&(what, width, *stride)));
            parts.push(format!("{width}: {}/{}", met.len(), strides(width).len()));
            let named = |stride| format!("stride {stride} of width {width}, {what}");
            missing.extend(not.into_iter().map(named));
        }
        println!("{what:18} {}", parts.join(", "));
    }
}
