//! The command line.

use crate::printings::{Printing, PRINTINGS};
use std::path::PathBuf;

pub const USAGE: &str =
    "crosscheck [--seed N] [--seconds N] [--lister PROGRAM] [--summary PROGRAM] [--case N] [--alone]

  --seed N           where the random cases start (1)
  --seconds N        how long to go on; a least number of cases is always run (10)
  --lister PROGRAM   compare this run lister too
  --summary PROGRAM  compare this summary of a run file too
  --case N           run one case again, as a failure named it
  --alone            compare with no other implementation, to see what the runs
                     one at a time find by themselves";

pub struct Options {
    pub seed: u64,
    pub seconds: u64,
    /// Those that print something of a run file.
    pub programs: Vec<(&'static Printing, PathBuf)>,
    pub case: Option<u64>,
    pub alone: bool,
}

impl Options {
    pub fn from(mut words: impl Iterator<Item = String>) -> Result<Options, String> {
        let mut options = Options {
            seed: 1,
            seconds: 10,
            programs: Vec::new(),
            case: None,
            alone: false,
        };
        while let Some(option) = words.next() {
            if option == "--alone" {
                options.alone = true;
                continue;
            }
            let value = words.next().ok_or(format!("{option} has no value"))?;
            match option.as_str() {
                "--seed" => options.seed = number(&value)?,
                "--seconds" => options.seconds = number(&value)?,
                "--case" => options.case = Some(number(&value)?),
                _ => {
                    let printing = printing(&option).ok_or(format!("no option {option}"))?;
                    options.programs.push((printing, PathBuf::from(value)));
                }
            }
        }
        Ok(options)
    }

    /// The options that run this case again.
    pub fn again(&self, case: u64) -> String {
        let mut again = format!("--seed {} --case {case}", self.seed);
        for (printing, path) in &self.programs {
            again += &format!(" --{} {}", printing.program, path.display());
        }
        if self.alone {
            again += " --alone";
        }
        again
    }
}

/// Whose program the option names.
fn printing(option: &str) -> Option<&'static Printing> {
    let program = option.strip_prefix("--")?;
    PRINTINGS.iter().find(|of| of.program == program)
}

fn number(word: &str) -> Result<u64, String> {
    word.parse().map_err(|_| format!("{word} is no number"))
}
