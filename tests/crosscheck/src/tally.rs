//! All cases of a cross-check, and what they add up to.

use crate::cases::files::RunFiles;
use crate::cases::runs::Runs;
use crate::cases::{collisions, dispatch, images, makes, moves, scripts, segments};
use crate::cases::{sizes, solo, spacers, stretch, strides};
use crate::coverage::Coverage;
use crate::failure::Failure;
use crate::options::Options;
use crate::printings::PRINTINGS;
use crate::rng::Rng;
use crate::side_by_side::{Checks, OTHERS};
use std::panic::{self, AssertUnwindSafe};
use std::process::ExitCode;
use std::time::{Duration, Instant};

/// Cases that are run however short the time is. They reach all there is to
/// reach but for few seeds, which ask for more time.
const LEAST_CASES: u64 = 690;
/// Images, makes and most scripts are short: a case has this many of them.
const IMAGES: u64 = 160;
const MAKES: u64 = 40;
const SCRIPTS: u64 = 6;
/// Which cases are of which sort goes by their number modulo this: most are
/// runs, which say the most, and a case of run files takes as long as twenty.
const SORTS: u64 = 23;
const RUN_FILES: u64 = 4;
const OF_SCRIPTS: u64 = 5;
const SOLO: u64 = 6;
const DISPATCH: u64 = 7;
const STRETCH: u64 = 8;
const STRIDES: u64 = 9;
const SEGMENTS: u64 = 10;
const SPACERS: u64 = 11;
const COLLISIONS: u64 = 12;
const MOVES: u64 = 13;
const SIZES: u64 = 14;

pub struct Tally {
    checks: Checks,
    /// None without a program that prints something of them.
    files: Option<RunFiles>,
    images: u64,
    runs: Runs,
}

impl Tally {
    pub fn new(options: &Options) -> Tally {
        let programs = &options.programs;
        for printing in &PRINTINGS {
            let (program, plural) = (printing.program, printing.plural);
            if !programs.iter().any(|(of, _)| of.program == program) {
                println!("no --{program}: {plural} of run files are not compared");
            }
        }
        Tally {
            checks: Checks {
                others: if options.alone { &[] } else { &OTHERS },
                coverage: Coverage::default(),
            },
            files: (!programs.is_empty()).then(|| RunFiles::new(programs)),
            images: 0,
            runs: Runs::default(),
        }
    }

    /// A failure comes with the number of its case.
    pub fn run(&mut self, options: &Options) -> Result<(), (u64, Failure)> {
        if let (Some(case), None) = (options.case, &self.files) {
            if case % SORTS == RUN_FILES && !options.alone {
                let needs = "this case compares run files, it needs --lister or --summary";
                return Err((case, Failure::Said(needs.to_string())));
            }
        }
        let one = |case| case..case + 1;
        let end = Instant::now() + Duration::from_secs(options.seconds);
        for case in options.case.map_or(0..u64::MAX, one) {
            if case >= LEAST_CASES && options.case.is_none() && Instant::now() >= end {
                break;
            }
            self.run_one(options, case)
                .map_err(|failure| (case, failure))?;
        }
        Ok(())
    }

    /// A panic is a failure of its case like any other.
    fn run_one(&mut self, options: &Options, case: u64) -> Result<(), Failure> {
        let rng = &mut Rng::new(options.seed, case);
        let outcome = panic::catch_unwind(AssertUnwindSafe(|| {
            if options.alone {
                self.runs.run(rng, &mut self.checks)
            } else {
                self.run_case(rng, case)
            }
        }));
        outcome.unwrap_or_else(|_| Err(Failure::Said("it panicked, see above".to_string())))
    }

    fn run_case(&mut self, rng: &mut Rng, case: u64) -> Result<(), Failure> {
        match case % SORTS {
            0 => {
                for _ in 0..MAKES {
                    makes::run(rng, &mut self.checks)?;
                }
            }
            1..=3 => {
                for _ in 0..IMAGES {
                    images::run(rng, &mut self.checks)?;
                    self.images += 1;
                }
            }
            RUN_FILES => {
                if let Some(files) = &mut self.files {
                    let coverage = &mut self.checks.coverage;
                    files.run(rng, width_in_turn(case), coverage)?;
                }
            }
            OF_SCRIPTS => {
                for _ in 0..SCRIPTS {
                    scripts::run(rng, &mut self.checks)?;
                }
            }
            SOLO => solo::run(rng, width_in_turn(case), &mut self.checks)?,
            DISPATCH => dispatch::run(rng, &mut self.checks)?,
            STRETCH => stretch::run(rng, width_in_turn(case), &mut self.checks)?,
            STRIDES => strides::run(rng, width_in_turn(case), &mut self.checks)?,
            SEGMENTS => segments::run(rng, width_in_turn(case), &mut self.checks)?,
            SPACERS => spacers::run(rng, &mut self.checks)?,
            COLLISIONS => collisions::run(rng, &mut self.checks)?,
            MOVES => moves::run(rng, &mut self.checks)?,
            SIZES => sizes::run(rng, width_in_turn(case), &mut self.checks)?,
            _ => self.runs.run(rng, &mut self.checks)?,
        }
        Ok(())
    }

    /// The counts; a pass has reached everything.
    pub fn report(&self) -> ExitCode {
        let missing = self.checks.coverage.report();
        for what in &missing {
            println!("crosscheck: FAILED, never reached: {what}");
        }
        if !missing.is_empty() {
            return ExitCode::FAILURE;
        }
        self.report_runs();
        println!(
            "crosscheck: {} calls, {} images, {} runs one at a time, {} scripts, {} solo operations, \
             {} dispatches, {} moves, {} run files: all equal",
            self.checks.coverage.calls,
            self.images,
            self.runs.runs,
            self.checks.coverage.worst_scripts,
            self.checks.coverage.solo.operations,
            self.checks.coverage.dispatches,
            self.checks.coverage.moves.made,
            self.files.as_ref().map_or(0, |files| files.files),
        );
        ExitCode::SUCCESS
    }

    pub fn report_runs(&self) {
        println!(
            "one at a time: {} operations of {} runs have places; {} runs need a put or a take before \
             its last step",
            self.runs.operations, self.runs.runs, self.runs.changed_early,
        );
        let [queue, stack] = self.runs.percent_of_worst;
        let [queues, stacks] = self.runs.at_worst;
        println!(
            "random runs without sizes: takes pass over up to {queue} % of the worst distance in queues, \
             {stack} % in stacks; {queues} runs of queues and {stacks} of stacks came to it",
        );
    }
}

/// Sixteen widths: the least cases come to each of them.
fn width_in_turn(case: u64) -> u32 {
    1 + (case / SORTS % 16) as u32
}
