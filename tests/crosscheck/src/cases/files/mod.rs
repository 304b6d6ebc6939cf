//! Run files: the programs that print something of them beside the second
//! implementation, byte for byte.

mod feed;
mod program;

use crate::coverage::files::Seen;
use crate::coverage::Coverage;
use crate::failure::Failure;
use crate::make_up::pieces::{self, in_turn, Pieces, LARGE, SMALL};
use crate::make_up::values::{Values, SHARES};
use crate::make_up::{own_bound, run_file};
use crate::printings::{Printing, LISTER};
use crate::rng::Rng;
use crate::take::Take;
use program::Program;
use second::{ListedTake, Summary, QUEUE, STACK};
use std::fmt::Display;
use std::fs;
use std::path::PathBuf;
use std::process::{self, Output};
use std::thread;

/// Files this small are cut at every byte.
const SMALL_BYTES: usize = 120;
/// A long file that is faulty within so many is left unread for the most part.
const SOON_BYTES: usize = 400;
/// So much of each printing is shown from where they differ.
const LINES_SHOWN: usize = 12;

/// What is printed of a run file.
struct Printed {
    /// By the second implementation.
    ours: Vec<u8>,
    /// Those in its listing; a summary has none.
    takes: Vec<ListedTake>,
    /// By the program.
    output: Output,
}

/// The programs, and the file that stands before them as their standard input.
pub struct RunFiles {
    programs: Vec<Program>,
    input: PathBuf,
    pub files: u64,
}

impl RunFiles {
    pub fn new(programs: &[(&'static Printing, PathBuf)]) -> RunFiles {
        let name = format!("crosscheck-{}.run", process::id());
        let programs = programs.iter().map(|(printing, path)| Program {
            printing,
            path: path.clone(),
        });
        RunFiles {
            programs: programs.collect(),
            input: std::env::temp_dir().join(name),
            files: 0,
        }
    }

    /// A random run file whole, damaged, cut and with bytes after its end; one of a
    /// pool of this width with each stride; those about sizes; a script with each share
    /// of spacers; a short and a long one in pieces; and scripts to the bound of their own
    /// windows.
    pub fn run(
        &mut self,
        rng: &mut Rng,
        width: u32,
        coverage: &mut Coverage,
    ) -> Result<(), Failure> {
        let file = run_file::whole(rng);
        self.compare(&file, rng, coverage)?;
        for _ in 0..6 {
            self.compare(&run_file::one_bit_damaged(rng, &file), rng, coverage)?;
            self.compare(&run_file::random(rng, &file), rng, coverage)?;
        }
        self.compare(&run_file::with_bytes_after(rng, &file), rng, coverage)?;
        if file.len() <= SMALL_BYTES {
            for len in 0..file.len() {
                self.compare(&file[..len], rng, coverage)?;
            }
        } else {
            for _ in 0..4 {
                let len = rng.below(file.len() as u32) as usize;
                self.compare(&file[..len], rng, coverage)?;
            }
        }
        for (bits, file) in run_file::of_every_stride(rng, width) {
            self.compare(&file, rng, coverage)?;
            coverage.strides.record_file(width, bits);
        }
        for kind in [QUEUE, STACK] {
            for (name, file) in run_file::of_sizes(rng, kind, width) {
                self.compare(&file, rng, coverage)?;
                coverage.files.record_sizes(name);
            }
        }
        self.run_scripts(rng, coverage)?;
        self.run_in_pieces(rng, width, coverage)?;
        if width > 1 {
            self.run_to_own_bound(rng, width, coverage)?;
        }
        fs::remove_file(&self.input).map_err(trouble)
    }

    /// To the worst distance, of each kind with each share of spacers.
    fn run_scripts(&mut self, rng: &mut Rng, coverage: &mut Coverage) -> Result<(), Failure> {
        for kind in [QUEUE, STACK] {
            for share in SHARES {
                let (file, words, last) = run_file::of_share(rng, kind, Values { share });
                self.compare(&file, rng, coverage)?;
                let take = Take::of_script(&words, &last).map_err(trouble)?;
                coverage.spacers.record_file(&take, share);
            }
        }
        Ok(())
    }

    /// To the bound of a window whose size was set, above the pool's own or below it.
    fn run_to_own_bound(
        &mut self,
        rng: &mut Rng,
        width: u32,
        coverage: &mut Coverage,
    ) -> Result<(), Failure> {
        let (settings, sizes) = own_bound::settings(rng, width);
        for size in sizes {
            let (file, words, last) = run_file::to_own_bound(rng, settings, size);
            self.compare(&file, rng, coverage)?;
            Take::of_script_to(size.distance_bound(), &words, &last).map_err(trouble)?;
        }
        Ok(())
    }

    /// A short run in small pieces and a long one in large pieces, whose buffers fill;
    /// and a long one that is soon faulty, so that a pipe stays full.
    fn run_in_pieces(
        &mut self,
        rng: &mut Rng,
        turn: u32,
        coverage: &mut Coverage,
    ) -> Result<(), Failure> {
        let turn = turn as usize;
        let short = run_file::short(rng);
        self.run_ends(rng, short, in_turn(SMALL, turn), coverage)?;
        let long = run_file::long(rng);
        let soon = run_file::out_of_place(rng, &long, 0..SOON_BYTES);
        self.compare_in(&soon, in_turn(LARGE, turn).next(), coverage)?;
        self.run_ends(rng, long, in_turn(LARGE, turn), coverage)
    }

    /// Cut, with a word out of place, and whole: each comes to other pieces next time.
    fn run_ends(
        &mut self,
        rng: &mut Rng,
        whole: Vec<u8>,
        pieces: impl Iterator<Item = Pieces>,
        coverage: &mut Coverage,
    ) -> Result<(), Failure> {
        let second_half = whole.len() / 2..whole.len();
        let files = [
            run_file::cut(rng, &whole, second_half.clone()),
            run_file::out_of_place(rng, &whole, second_half),
            whole,
        ];
        for (file, pieces) in files.iter().zip(pieces) {
            self.compare_in(file, Some(pieces), coverage)?;
        }
        Ok(())
    }

    fn compare(
        &mut self,
        file: &[u8],
        rng: &mut Rng,
        coverage: &mut Coverage,
    ) -> Result<(), Failure> {
        let pieces = pieces::any(rng, file.len());
        self.compare_in(file, pieces, coverage)
    }

    fn compare_in(
        &mut self,
        file: &[u8],
        pieces: Option<Pieces>,
        coverage: &mut Coverage,
    ) -> Result<(), Failure> {
        self.files += 1;
        fs::write(&self.input, file).map_err(trouble)?;
        let summary = Summary::of(file).map_err(trouble)?;
        let printed = self.print(file, pieces)?;
        for (program, printed) in self.programs.iter().zip(printed) {
            let Printed {
                ours,
                takes,
                output,
            } = printed;
            if program.printing.program == LISTER {
                coverage.over_bound.record(&takes, &summary);
            }
            if let Some(take) = takes.iter().find(|take| take.stopped) {
                return Err(self.stopped(file, take));
            }
            // A status of None is a death by signal; the paper has no statuses.
            let died = output.status.code().is_none();
            if died || output.stdout != ours || !output.stderr.is_empty() {
                return Err(self.different(program, (file, pieces), &ours, &output));
            }
            let seen = Seen {
                pieces,
                bytes: file.len() as u64,
                printed: ours.len(),
                summary: &summary,
            };
            coverage.files.record(program.printing.program, &seen);
        }
        Ok(())
    }

    /// By the second implementation and by each program; all of them run meanwhile.
    fn print(&self, file: &[u8], pieces: Option<Pieces>) -> Result<Vec<Printed>, Failure> {
        thread::scope(|scope| {
            let mut running = Vec::new();
            for program in &self.programs {
                let started = program.start(scope, &self.input, file, pieces);
                running.push(started.map_err(|error| program.trouble(error))?);
            }
            let mut printed = Vec::new();
            for (program, running) in self.programs.iter().zip(running) {
                let (mut ours, mut takes) = (Vec::new(), Vec::new());
                let mut watch = |take: &ListedTake| takes.push(*take);
                (program.printing.by_second)(file, &mut ours, &mut watch).map_err(trouble)?;
                let output = running.output().map_err(|error| program.trouble(error))?;
                printed.push(Printed {
                    ours,
                    takes,
                    output,
                });
            }
            Ok(printed)
        })
    }

    /// K9: "no run file reaches it". The file stays where it is, for a look.
    fn stopped(&self, file: &[u8], take: &ListedTake) -> Failure {
        Failure::Said(format!(
            "the second implementation's lister stops with 30 at word {} of a run file of {} bytes with {:?}: \
             distance {}, bound {}; the file stays at {}",
            take.position,
            file.len(),
            take.settings,
            take.distance,
            take.bound,
            self.input.display(),
        ))
    }

    /// The file stays where it is, for a look.
    fn different(
        &self,
        program: &Program,
        (file, pieces): (&[u8], Option<Pieces>),
        ours: &[u8],
        output: &Output,
    ) -> Failure {
        let ours = String::from_utf8_lossy(ours);
        let theirs = String::from_utf8_lossy(&output.stdout);
        let lines = ours.split_inclusive('\n').zip(theirs.split_inclusive('\n'));
        let equal = lines.take_while(|(ours, theirs)| ours == theirs).count();
        let from_there = |text: &str| -> String {
            let lines = text.split_inclusive('\n').skip(equal);
            lines.take(LINES_SHOWN).collect()
        };
        Failure::Said(format!(
            "{} of a run file of {} bytes differ, {}; it stays at {}\n  second, after {equal} equal lines:\n{}  \
             {} ({}):\n{}  its standard error:\n{}",
            program.printing.plural,
            file.len(),
            pieces.map_or("as a file".to_string(), |of| format!("in pieces of {of} bytes")),
            self.input.display(),
            from_there(&ours),
            program.path.display(),
            output.status,
            from_there(&theirs),
            String::from_utf8_lossy(&output.stderr),
        ))
    }
}

fn trouble(what: impl Display) -> Failure {
    Failure::Said(format!("run file: {what}"))
}
