//! Moves (K6): by direction and kind, how many came to each corner, which two faults
//! were met at once, in which phases pools from make and images were moved whose workers
//! then came to a final answer, and what the later calls were answered.

mod corners;

use super::by_origin::ByOrigin;
use super::numbers::{Numbers, DISPATCH};
use super::phases::{kind_name, phase_name};
use super::Origin;
use crate::make_up::movable::{Exception, EXCEPTIONS};
use crate::make_up::move_faults::{alone_and_in_pairs, Fault};
use crate::moved::Trip;
use corners::{Area, Corner, Given, AREAS, BY_LENGTH, CORNERS};
use second::{phase, QUEUE, STACK};
use sides::{Move, MOVES};
use std::collections::{BTreeMap, BTreeSet};

/// What a fit pool can be answered after a move.
const LATER: [(&str, &[u32]); 4] = [
    ("begin put", &[0, 24, 25, 27]),
    ("begin take", &[0, 24, 25, 27]),
    ("step", &[0, 1, 2, 3, 4, 23, 24, 26, 27]),
    (DISPATCH, &[1, 2, 3, 4, 5, 6, 23, 24, 27]),
];

/// A direction and a kind.
type Way = (Move, u32);

#[derive(Default)]
pub struct Moves {
    pub made: u64,
    /// By the name of the corner, and by area if it is one of lengths.
    corners: BTreeMap<(Way, Option<Area>, &'static str), u64>,
    faults: BTreeSet<(Way, Vec<Fault>)>,
    finished: BTreeMap<(Way, u32), ByOrigin>,
    later: BTreeMap<Way, Numbers>,
    /// By kind: between editions 0 and 1, and between 1 and 2.
    runs: BTreeMap<u32, u64>,
    travels: BTreeMap<u32, u64>,
    /// By name.
    exceptions: BTreeMap<&'static str, u64>,
}

impl Moves {
    pub fn record(&mut self, trip: Trip, from: &[u32], to: &[u32], number: u32) {
        self.made += 1;
        let given = Given {
            trip,
            from,
            to,
            number,
        };
        let mut met = Vec::new();
        for (area, _) in AREAS {
            let corners = BY_LENGTH.iter().filter(|(_, is_so)| is_so(&given, area));
            met.extend(corners.map(|(name, _)| (Some(area), *name)));
        }
        let corners = CORNERS.iter().filter(|corner| is_of(corner, way(trip)));
        let corners = corners.filter(|corner| (corner.is_so)(&given));
        met.extend(corners.map(|corner| (None, corner.name)));
        for (area, name) in met {
            *self.corners.entry((way(trip), area, name)).or_default() += 1;
        }
    }

    /// One fault, or two at once, of which the first gave the number.
    pub fn record_faults(&mut self, trip: Trip, faults: &[Fault]) {
        self.faults.insert((way(trip), faults.to_vec()));
    }

    /// A final answer of a worker that was moved in this phase.
    pub fn record_finished(&mut self, trip: Trip, phase: u32) {
        let origin = Origin {
            from_make: trip.from_make,
            share: None,
        };
        let count = self.finished.entry((way(trip), phase)).or_default();
        count.add(origin, true);
    }

    /// A call after the move, with the same answer in both editions.
    pub fn record_later(&mut self, trip: Trip, call: &'static str, number: u32) {
        let later = self.later.entry(way(trip)).or_default();
        later.record(call, number);
    }

    /// A run from make that stands one at a time, by how often its pool was moved.
    pub fn record_run(&mut self, kind: u32, moves: [u32; 2]) {
        let often = moves.iter().all(|times| *times > 1);
        *self.runs.entry(kind).or_default() += u64::from(often);
    }

    /// The same between editions 1 and 2.
    pub fn record_travel(&mut self, kind: u32, moves: [u32; 2]) {
        let often = moves.iter().all(|times| *times > 1);
        *self.travels.entry(kind).or_default() += u64::from(often);
    }

    /// A queue that does not move for this alone.
    pub fn record_exception(&mut self, name: &'static str) {
        *self.exceptions.entry(name).or_default() += 1;
    }

    /// Prints the counts; what is missing comes back.
    pub fn report(&self) -> Vec<String> {
        let mut missing = Vec::new();
        println!("moves by their corners");
        for (area, of) in AREAS {
            for (name, _) in BY_LENGTH {
                let printed = format!("{of}: {name}");
                self.report_corner((Some(area), name), &printed, ways(), &mut missing);
            }
        }
        for corner in &CORNERS {
            let ways = ways().filter(|way| is_of(corner, *way));
            self.report_corner((None, corner.name), corner.name, ways, &mut missing);
        }
        for (runs, between) in [(&self.runs, "0 and 1"), (&self.travels, "1 and 2")] {
            for kind in [QUEUE, STACK] {
                let count = runs.get(&kind).copied().unwrap_or(0);
                let kind = kind_name(kind);
                let name = format!("a {kind} moved more than once both ways between {between}");
                println!("{count:9} runs of {name}");
                if count == 0 {
                    missing.push(format!("a run of {name}"));
                }
            }
        }
        for Exception { name, which, .. } in &EXCEPTIONS {
            let count = self.exceptions.get(name).copied().unwrap_or(0);
            let name = format!("{} with 33 for {name}", move_name(*which));
            println!("{count:9} times {name}");
            if count == 0 {
                missing.push(name);
            }
        }
        for way in ways() {
            let named = way_name(way);
            self.report_faults(way, &named, &mut missing);
            self.report_phases(way, &named, &mut missing);
            println!("{named}, the calls after it:");
            let later = self.later.get(&way).cloned().unwrap_or_default();
            let after = |what| format!("{named}, after it {what}");
            missing.extend(later.report(&LATER).into_iter().map(after));
        }
        missing
    }

    fn report_corner(
        &self,
        (area, name): (Option<Area>, &'static str),
        printed: &str,
        ways: impl Iterator<Item = Way>,
        missing: &mut Vec<String>,
    ) {
        let mut parts = Vec::new();
        for way in ways {
            let count = self.corners.get(&(way, area, name)).copied().unwrap_or(0);
            let named = way_name(way);
            parts.push(format!("{named}: {count}"));
            if count == 0 {
                missing.push(format!("{named}, {printed}"));
            }
        }
        println!("{printed:47} {}", parts.join(", "));
    }

    fn report_faults(&self, way: Way, named: &str, missing: &mut Vec<String>) {
        let asked = alone_and_in_pairs(way.0, way.1);
        let all = asked.len();
        let keys = asked.into_iter().map(|faults| (way, faults));
        let not: Vec<_> = keys.filter(|key| !self.faults.contains(key)).collect();
        let met = all - not.len();
        println!("{named}, refused for one fault or the first of two: {met} of {all}");
        missing.extend(
            not.iter()
                .map(|(_, faults)| format!("{named}, refused for {faults:?}")),
        );
    }

    fn report_phases(&self, way: Way, named: &str, missing: &mut Vec<String>) {
        let mut parts = Vec::new();
        for phase in (0..15).filter(|phase| phase::is_of_kind(way.1, *phase)) {
            let count = self.finished.get(&(way, phase));
            let count = count.copied().unwrap_or_default();
            let name = phase_name(phase);
            parts.push(format!("{name}: {count}"));
            let then_finished = format!("{named}, at {name} and then finished");
            if count.from_make == 0 {
                missing.push(format!("{then_finished}, from make"));
            }
            if count.in_images == 0 {
                missing.push(format!("{then_finished}, in an image"));
            }
        }
        println!(
            "{named}, at a phase and then finished, from make / in images: {}",
            parts.join(", ")
        );
    }
}

fn ways() -> impl Iterator<Item = Way> {
    [QUEUE, STACK]
        .into_iter()
        .flat_map(|kind| MOVES.map(|which| (which, kind)))
}

fn way_name((which, kind): Way) -> String {
    format!("{} {}", kind_name(kind), move_name(which))
}

fn way(trip: Trip) -> Way {
    (trip.which, trip.settings.kind)
}

fn is_of(corner: &Corner, (which, kind): Way) -> bool {
    corner.of.contains(&which) && corner.kinds.contains(&kind)
}

pub fn move_name(which: Move) -> &'static str {
    match which {
        Move::From0To1 => "move 0 to 1",
        Move::From1To0 => "move 1 to 0",
        Move::From1To2 => "move 1 to 2",
        Move::From2To1 => "move 2 to 1",
    }
}
