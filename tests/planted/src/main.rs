//! Plants faults in a copy of the second implementation, one at a time, and
//! prints how long the cross-check takes to find each. Exits non-zero if one
//! is not found.
//!
//! planted [--seconds N] [--seed N] [--from TEXT] [--lister PROGRAM]
//! [--summary PROGRAM], with at most N seconds for each trial (120), and from the first
//! fault on whose name has the text

mod copy;
mod faults;
mod trial;

use copy::Copy;
use faults::{Fault, FAULTS, LISTER, SUMMARY};
use std::path::{Path, PathBuf};
use std::process::ExitCode;
use trial::{finder, trial, Outcome};

struct Options {
    seconds: String,
    seed: String,
    from: String,
    /// Those that print something of a run file, by their names.
    programs: Vec<(&'static str, PathBuf)>,
}

fn main() -> ExitCode {
    match options().and_then(|options| run(&options)) {
        Ok(true) => ExitCode::SUCCESS,
        Ok(false) => ExitCode::FAILURE,
        Err(wrong) => {
            eprintln!("planted: {wrong}");
            ExitCode::from(2)
        }
    }
}

fn options() -> Result<Options, String> {
    let mut options = Options {
        seconds: "120".to_string(),
        seed: "1".to_string(),
        from: String::new(),
        programs: Vec::new(),
    };
    let mut words = std::env::args().skip(1);
    while let Some(option) = words.next() {
        let value = words.next().ok_or(format!("{option} has no value"))?;
        match option.as_str() {
            "--seconds" => options.seconds = value,
            "--seed" => options.seed = value,
            "--from" => options.from = value,
            _ => {
                let program = program(&option).ok_or(format!("no option {option}"))?;
                let path = absolute(Path::new(&value))?;
                options.programs.push((program, path));
            }
        }
    }
    Ok(options)
}

/// Which one the option names.
fn program(option: &str) -> Option<&'static str> {
    let name = option.strip_prefix("--")?;
    [LISTER, SUMMARY].into_iter().find(|of| *of == name)
}

/// True if every fault was found.
fn run(options: &Options) -> Result<bool, String> {
    let tests = Path::new(env!("CARGO_MANIFEST_DIR")).join("..");
    let archive = match std::env::var_os("POOL_ARCHIVE") {
        Some(path) => PathBuf::from(path),
        None => tests.join("../target/staticlib/libpool.a"),
    };
    let copy = Copy::of(&tests, &absolute(&archive)?).map_err(|error| error.to_string())?;
    if let Outcome::Found(_, printed) =
        trial(&copy.build()?, &crosscheck_options(options, "0", false))?
    {
        return Err(format!("without a fault the cross-check fails:\n{printed}"));
    }
    println!("| planted fault | found after | by | one at a time alone |");
    println!("|---|---:|---|---:|");
    let mut all_found = true;
    let is_given = |program| options.programs.iter().any(|(name, _)| *name == program);
    for fault in FAULTS
        .iter()
        .skip_while(|fault| !fault.name.contains(&options.from))
        .filter(|fault| fault.shown_by.is_none_or(is_given))
    {
        let before = copy
            .plant(fault)
            .map_err(|why| format!("{}: {why}", fault.name))?;
        all_found &= report(options, &copy, fault)?;
        copy.restore(fault, &before)?;
    }
    Ok(all_found)
}

/// A row of the table; true if the cross-check found the fault.
fn report(options: &Options, copy: &Copy, fault: &Fault) -> Result<bool, String> {
    let crosscheck = copy.build()?;
    let limit = &options.seconds;
    let compared = trial(&crosscheck, &crosscheck_options(options, limit, false))?;
    let alone = if fault.seen_alone {
        match trial(&crosscheck, &crosscheck_options(options, limit, true))? {
            Outcome::Found(seconds, printed) => format!("{seconds:.3} s, {}", finder(&printed)),
            Outcome::NotFound => format!("not in {limit} s"),
        }
    } else {
        "-".to_string()
    };
    let (found, by) = match &compared {
        Outcome::Found(seconds, printed) => (format!("{seconds:.3} s"), finder(printed)),
        Outcome::NotFound => (format!("NOT in {limit} s"), "-"),
    };
    println!("| {} | {found} | {by} | {alone} |", fault.name);
    Ok(matches!(compared, Outcome::Found(..)))
}

fn crosscheck_options(options: &Options, seconds: &str, alone: bool) -> Vec<String> {
    let mut all = ["--seconds", seconds, "--seed", &options.seed]
        .map(str::to_string)
        .to_vec();
    if alone {
        all.push("--alone".to_string());
    } else {
        for (program, path) in &options.programs {
            all.extend([format!("--{program}"), path.display().to_string()]);
        }
    }
    all
}

fn absolute(path: &Path) -> Result<PathBuf, String> {
    path.canonicalize()
        .map_err(|error| format!("{}: {error}", path.display()))
}
