//! The compiled library beside the second implementation, call by call.

mod cases;
mod copy;
mod coverage;
mod failure;
mod make_up;
mod moved;
mod options;
mod printings;
mod rng;
mod side_by_side;
mod take;
mod tally;

use options::{Options, USAGE};
use std::process::ExitCode;
use tally::Tally;

fn main() -> ExitCode {
    let options = match Options::from(std::env::args().skip(1)) {
        Ok(options) => options,
        Err(wrong) => {
            eprintln!("{wrong}\n\n{USAGE}");
            return ExitCode::from(2);
        }
    };
    let mut tally = Tally::new(&options);
    if let Err((case, failure)) = tally.run(&options) {
        println!("crosscheck: FAILED in case {case} of seed {}", options.seed);
        print!("{failure}");
        println!("  again with: {}", options.again(case));
        return ExitCode::FAILURE;
    }
    if options.case.is_some() {
        println!("crosscheck: this case is equal");
        return ExitCode::SUCCESS;
    }
    if options.alone {
        tally.report_runs();
        println!("crosscheck: nothing compared, each run can stand one at a time");
        return ExitCode::SUCCESS;
    }
    tally.report()
}
