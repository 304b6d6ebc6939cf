//! Run files in pieces: for each program and size of the pieces, how many came to
//! each end, and how many filled buffers. And what the summaries tell.

use super::counts::Counts;
use crate::make_up::pieces::{Pieces, LARGE, PIECES};
use crate::make_up::run_file;
use crate::printings::{LISTER, SUMMARY};
use second::{Summary, CUT, OFF_LIMITS, OUT_OF_PLACE};
use std::collections::{BTreeMap, BTreeSet};

/// What a buffer or a pipe holds.
const BUFFER_BYTES: u64 = 65_536;
const WORD_BYTES: u64 = 4;

/// A run file that a program printed right.
pub struct Seen<'a> {
    /// None if it was not in pieces.
    pub pieces: Option<Pieces>,
    pub bytes: u64,
    /// How many bytes were printed.
    pub printed: usize,
    pub summary: &'a Summary,
}

struct Corner {
    name: &'static str,
    is_so: fn(&Seen, Pieces) -> bool,
    /// Which pieces lead to it.
    pieces: &'static [Pieces],
    /// Of this program alone.
    of: Option<&'static str>,
}

const fn end(name: &'static str, is_so: fn(&Seen, Pieces) -> bool) -> Corner {
    Corner {
        name,
        is_so,
        pieces: PIECES,
        of: None,
    }
}

const fn long(name: &'static str, is_so: fn(&Seen, Pieces) -> bool) -> Corner {
    Corner {
        pieces: LARGE,
        ..end(name, is_so)
    }
}

/// An end counts if it is not in the first piece.
const CORNERS: [Corner; 6] = [
    end("whole", |seen, pieces| ends_with(seen, pieces, None)),
    end("28", |seen, pieces| ends_with(seen, pieces, Some(CUT))),
    end("29", |seen, pieces| {
        ends_with(seen, pieces, Some(OUT_OF_PLACE))
    }),
    long("two buffers and more read", |seen, _| {
        read(seen) > 2 * BUFFER_BYTES
    }),
    long("two buffers and more not read", |seen, _| {
        seen.bytes - read(seen) > 2 * BUFFER_BYTES
    }),
    Corner {
        of: Some(LISTER),
        ..long("a buffer and more printed", |seen, _| {
            seen.printed as u64 > BUFFER_BYTES
        })
    },
];

type Told = (&'static str, fn(&Summary) -> bool);

const TOLD: [Told; 14] = [
    ("a summary of a whole file", |told| number(told).is_none()),
    ("a summary of a 22", |told| number(told) == Some(OFF_LIMITS)),
    ("a summary of a 28", |told| number(told) == Some(CUT)),
    ("a summary of a 28 with items held", |told| {
        number(told) == Some(CUT) && told.held > 0
    }),
    ("a summary of a 29", |told| {
        number(told) == Some(OUT_OF_PLACE)
    }),
    ("a summary of a 29 with items held", |told| {
        number(told) == Some(OUT_OF_PLACE) && told.held > 0
    }),
    ("a summary with empties and fulls", |told| {
        told.empty > 0 && told.full > 0
    }),
    ("a summary with refused calls", |told| told.refused > 0),
    ("a summary with a lost commit", |told| told.lost == 1),
    ("a summary with lost commits", |told| told.lost > 1),
    ("a summary with the worst below the bound", |told| {
        (1..told.bound).contains(&told.worst)
    }),
    ("a summary with the worst at the bound", |told| {
        told.worst > 0 && told.worst == told.bound
    }),
    ("a summary with sizes set", |told| told.sizes > 0),
    ("a summary with sizes set and takes", |told| {
        told.sizes > 0 && told.worst > 0
    }),
];

#[derive(Default)]
pub struct Files {
    programs: BTreeSet<&'static str>,
    /// By program, name of the corner, and pieces.
    corners: BTreeMap<(&'static str, &'static str, Pieces), u64>,
    told: Counts<{ TOLD.len() }>,
    /// Those about kind 8 words, by what they are about.
    sizes: BTreeMap<&'static str, u64>,
}

impl Files {
    pub fn record(&mut self, program: &'static str, seen: &Seen) {
        self.programs.insert(program);
        if program == SUMMARY {
            self.told.add(TOLD.map(|(_, is_so)| is_so(seen.summary)));
        }
        let Some(pieces) = seen.pieces else {
            return;
        };
        for corner in CORNERS.iter().filter(|of| (of.is_so)(seen, pieces)) {
            let key = (program, corner.name, pieces);
            *self.corners.entry(key).or_default() += 1;
        }
    }

    /// A file about kind 8 words, which was printed right.
    pub fn record_sizes(&mut self, name: &'static str) {
        *self.sizes.entry(name).or_default() += 1;
    }

    /// Prints the counts, of the programs that there are; what is missing comes back.
    pub fn report(&self) -> Vec<String> {
        let mut missing = Vec::new();
        for program in &self.programs {
            println!("run files for the {program}, by their pieces");
            let corners = CORNERS.iter();
            for corner in corners.filter(|corner| corner.of.is_none_or(|of| of == *program)) {
                self.report_corner(program, corner, &mut missing);
            }
        }
        let [of_queue, of_stack] = run_file::WHOLE;
        let about = [
            of_queue,
            of_stack,
            run_file::SPARE,
            run_file::FIRST,
            run_file::SECOND_WORD,
        ];
        for name in about.iter().filter(|_| !self.programs.is_empty()) {
            let count = self.sizes.get(name).copied().unwrap_or(0);
            println!("{count:9} run files with {name}");
            if count == 0 {
                missing.push(format!("a run file with {name}"));
            }
        }
        if self.programs.contains(SUMMARY) {
            missing.extend(self.told.report(TOLD));
        }
        missing
    }

    fn report_corner(&self, program: &'static str, corner: &Corner, missing: &mut Vec<String>) {
        let name = corner.name;
        let mut parts = Vec::new();
        for pieces in corner.pieces {
            let key = (program, name, *pieces);
            let count = self.corners.get(&key).copied().unwrap_or(0);
            parts.push(format!("{pieces}: {count}"));
            if count == 0 {
                missing.push(format!("{program}, {name}, in pieces of {pieces} bytes"));
            }
        }
        println!("{name:29} {}", parts.join(", "));
    }
}

/// Up to its end, or before the faulty word.
fn read(seen: &Seen) -> u64 {
    WORD_BYTES * seen.summary.words
}

fn ends_with(seen: &Seen, pieces: Pieces, fault: Option<u32>) -> bool {
    number(seen.summary) == fault && read(seen) >= pieces.largest() as u64
}

fn number(told: &Summary) -> Option<u32> {
    told.fault.as_ref().map(|fault| fault.number)
}
