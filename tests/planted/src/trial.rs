//! One run of the cross-check on a planted fault.

use std::path::Path;
use std::process::Command;
use std::time::Instant;

pub enum Outcome {
    /// After so many seconds, with what the cross-check printed.
    Found(f64, String),
    NotFound,
}

/// Runs the cross-check for at most about so many seconds.
pub fn trial(crosscheck: &Path, options: &[String]) -> Result<Outcome, String> {
    let start = Instant::now();
    // A run file that fails stays in the temporary folder: in this one, it
    // goes with the copy.
    let beside = crosscheck.parent().ok_or("a program stands in a folder")?;
    let output = Command::new(crosscheck)
        .args(options)
        .env("TMPDIR", beside)
        .output()
        .map_err(|error| error.to_string())?;
    let seconds = start.elapsed().as_secs_f64();
    let printed = String::from_utf8_lossy(&output.stdout).to_string();
    match output.status.code() {
        Some(0) => Ok(Outcome::NotFound),
        Some(1) => Ok(Outcome::Found(seconds, printed)),
        other => Err(format!("crosscheck ended with {other:?}: {printed}")),
    }
}

/// What found it, from what the cross-check printed.
pub fn finder(printed: &str) -> &'static str {
    let signs = [
        ("never reached", "something is never reached"),
        ("left by itself", "a worker left by itself"),
        ("steps in a row", "a stretch"),
        ("its ninth word", "a count over the run"),
        ("script with", "a script"),
        ("it ends with", "a script"),
        ("one at a time: no place", "one at a time"),
        ("one at a time: undecided", "one at a time, undecided"),
        ("one at a time", "one at a time"),
        ("stops with 30", "the lister's stop"),
        ("listings of a run file", "run files"),
        ("summaries of a run file", "summaries of run files"),
        ("call: Dispatch", "a dispatch compared"),
        ("call: From", "a move compared"),
        ("in edition 0 and", "both editions' answers"),
        ("the pools part", "both editions' words"),
        ("compiled answers", "a call compared"),
        ("may not change", "a word that may not change"),
        ("panicked", "a panic"),
    ];
    let sign = signs.iter().find(|(sign, _)| printed.contains(sign));
    sign.map_or("unknown", |(_, name)| name)
}
