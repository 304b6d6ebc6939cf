//! Whether a distance's time depends on how many of the held items are spacers.

use crate::again::per_call;
use crate::commit::Commit;
use crate::image::largest;
use crate::measure::{in_turn, medians};
use crate::tables::KINDS;
use crate::walks::in_runs;
use std::array::from_fn;

/// Calls timed per round, share and way.
const CALLS: u32 = 256;
/// Spacers among a hundred held items.
const SHARES: [u32; 4] = [0, 10, 50, 100];

const TEXT: &str = "\
Nanoseconds for the distance over 4,096 held items at w 4, of which 0, 10, 50 and 100% are
spacers. All of these take turns.

| kind | loop | 0% | 10% | 50% | 100% | greatest / least |
|---|---|---:|---:|---:|---:|---:|";

pub fn table() {
    println!("{TEXT}");
    for (kind, name) in KINDS {
        let settings = largest(kind, 4);
        let items = settings.width * settings.rows;
        let rounds = rounds(SHARES.map(|share| Commit::of(settings, items, share)));
        let runs = medians(&rounds, |times| from_fn(|at| times[3 * at]));
        let compiled = medians(&rounds, |times| {
            from_fn(|at| times[3 * at + 1] - times[3 * at + 2])
        });
        print_row(name, "in runs", runs);
        print_row(name, "compiled", compiled);
    }
    println!();
}

/// Times of each share's walk, take and lost take.
fn rounds(mut commits: [Commit; 4]) -> Vec<[f64; 12]> {
    in_turn(|way| {
        let commit = &mut commits[way / 3];
        per_call(CALLS, |n| match way % 3 {
            0 => commit.walk(in_runs, n),
            1 => commit.take(n),
            _ => commit.lose(n),
        })
    })
}

fn print_row(kind: &str, what: &str, times: [f64; 4]) {
    let greatest = times.into_iter().fold(f64::MIN, f64::max);
    let least = times.into_iter().fold(f64::MAX, f64::min);
    let cells = times.map(|time| format!("{time:.0}")).join(" | ");
    println!("| {kind} | {what} | {cells} | {:.2} |", greatest / least);
}
