//! The summary of a run file: seven lines that tell what it came to, whole or
//! faulty.

use super::replay::{Called, Replay};
use super::{Fault, Stop};
use crate::answer::{EMPTY, FULL, MOVING, PUT, STEP_LIMIT, TAKEN};
use crate::bounds::distance_bound;
use crate::pool::edition::Edition;
use crate::pool::layout;
use std::fmt;
use std::io::{self, Read, Write};

/// Where no pool was made all but the first two stays 0.
#[derive(Debug, Default)]
pub struct Summary {
    /// None in a whole file.
    pub fault: Option<Fault>,
    /// Those that stand in their place: all of a whole file's, its end word too,
    /// otherwise those before the faulty one.
    pub words: u64,
    pub put: u64,
    pub taken: u64,
    pub empty: u64,
    pub full: u64,
    /// Begins, steps and sizes; a refused make is a fault of the file.
    pub refused: u64,
    pub held: u32,
    /// The greatest distance of a take.
    pub worst: u32,
    /// Demand 3's, for the file's settings. Reading: where sizes were set, the greatest
    /// of theirs and of the pool's own, so that it stands above every take's.
    pub bound: u32,
    /// The failed commits of all workers together.
    pub lost: u64,
    pub steps: u32,
    /// How many sizes were set; it is not printed.
    pub sizes: u64,
}

/// Prints the summary of the run file that `input` yields, of a pool of this edition.
pub fn summarize<R: Read, W: Write>(edition: Edition, input: R, mut output: W) -> io::Result<()> {
    write!(output, "{}", Summary::in_edition(edition, input)?)?;
    output.flush()
}

impl Summary {
    /// In the current edition.
    pub fn of<R: Read>(input: R) -> io::Result<Summary> {
        Summary::in_edition(Edition::CURRENT, input)
    }

    pub fn in_edition<R: Read>(edition: Edition, input: R) -> io::Result<Summary> {
        let mut summary = Summary::default();
        match summary.run(edition, input) {
            Ok(words) => summary.words = words,
            Err(Stop::At(fault)) => {
                summary.words = fault.position;
                summary.fault = Some(fault);
            }
            Err(Stop::Io(error)) => return Err(error),
        }
        Ok(summary)
    }

    /// All that a made pool comes to; how many words a whole file has.
    fn run<R: Read>(&mut self, edition: Edition, input: R) -> Result<u64, Stop> {
        let mut replay = Replay::open(edition, input)?;
        self.bound = distance_bound(&replay.settings);
        let ended = self.calls(&mut replay);
        let pool = replay.pool();
        self.held = pool.held();
        self.lost = (0..pool.settings.workers)
            .map(|number| u64::from(pool.worker(number).failed_commits))
            .sum();
        self.steps = pool.words[layout::STEPS_COUNTED];
        ended.map(|()| replay.words_read())
    }

    fn calls<R: Read>(&mut self, replay: &mut Replay<R>) -> Result<(), Stop> {
        while let Some(Called { answer, size, .. }) = replay.next_call()? {
            if let Some(size) = size {
                self.bound = self.bound.max(size.distance_bound());
                self.sizes += 1;
            }
            match answer.number {
                MOVING => {}
                PUT => self.put += 1,
                TAKEN => self.taken += 1,
                EMPTY => self.empty += 1,
                FULL => self.full += 1,
                _ => self.refused += 1,
            }
            self.worst = self.worst.max(answer.distance);
        }
        Ok(())
    }
}

impl fmt::Display for Summary {
    fn fmt(&self, to: &mut fmt::Formatter) -> fmt::Result {
        match &self.fault {
            None => writeln!(to, "whole")?,
            Some(Fault { position, number }) => writeln!(to, "faulty {number} at {position}")?,
        }
        writeln!(to, "words {}", self.words)?;
        writeln!(
            to,
            "put {} taken {} empty {} full {} refused {}",
            self.put, self.taken, self.empty, self.full, self.refused
        )?;
        writeln!(to, "held {}", self.held)?;
        writeln!(to, "worst {} bound {}", self.worst, self.bound)?;
        writeln!(to, "lost {}", self.lost)?;
        writeln!(to, "steps {} of {STEP_LIMIT}", self.steps)
    }
}
