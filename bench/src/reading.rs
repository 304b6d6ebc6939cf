//! The check and the distance beside a plain read of the same words: a sum of
//! them, in a loop of Rust's. Each is how much longer a call takes on a larger
//! pool; both pools are timed in every round, and the median round counts.

use crate::again::{per_call, walk_again, Again};
use crate::commit::{before_commit, STEP};
use crate::loops::sum_of_words;
use crate::measure::{median, ROUNDS};
use crate::side::{Compiled, Fast};
use crate::tables::{settings, CELLS, KINDS};
use crate::workload::held;
use second::layout::CELL_WORDS;
use second::Settings;
use sides::Call;
use std::ops::Range;

/// Calls timed per round.
const CALLS: u32 = 2_000;

/// A call, and the words that it has to read.
struct Case {
    words: Vec<u32>,
    again: Again,
    reads: Range<usize>,
}

pub fn table() {
    println!("## Beside reading the words once\n");
    println!(
        "How much longer a call takes, in nanoseconds, for each sub (two words), worker (nine"
    );
    println!(
        "words) or held item (two words) more: compiled, `fast`, and a loop that only adds up"
    );
    println!(
        "the same words. A call that names no worker shows the check alone; the last step of a"
    );
    println!(
        "take, the distance. The words of held items are added up as they lie, values and stamps"
    );
    println!("alike.\n");
    println!("| kind | what | for each | compiled | fast | reading |");
    println!("|---|---|---|---:|---:|---:|");
    for (kind, name) in KINDS {
        let of_width = |width| check(&settings(kind, width, CELLS / width, 8));
        print_row(name, "check", "sub", [1, 16], of_width);
        let of_workers = |workers| check(&settings(kind, 4, CELLS / 4, workers));
        print_row(name, "check", "worker", [1, 32], of_workers);
        let of_items = |items| distance(&settings(kind, 4, 1024, 8), items);
        print_row(name, "distance", "held item", [64, 3_900], of_items);
    }
    println!();
}

fn print_row(kind: &str, what: &str, each: &str, sizes: [u32; 2], case: impl Fn(u32) -> Case) {
    let more = f64::from(sizes[1] - sizes[0]);
    let mut cases = sizes.map(case);
    let mut rounds = [(); 3].map(|()| Vec::new());
    for _ in 0..ROUNDS {
        let [few, many] = cases.each_mut().map(times);
        for (side, times) in rounds.iter_mut().enumerate() {
            times.push((many[side] - few[side]) / more);
        }
    }
    let [compiled, fast, read] = rounds.map(median);
    println!("| {kind} | {what} | {each} | {compiled:.2} | {fast:.2} | {read:.2} |");
}

/// A step of a worker that is not there: the whole check, then refusal 24.
fn check(settings: &Settings) -> Case {
    let words = held(settings, 256);
    let worker = settings.workers;
    let again = Again::of(&words, Call::Step { worker });
    let reads = 0..settings.cells_at();
    Case {
        words,
        again,
        reads,
    }
}

/// The last step of a take.
fn distance(settings: &Settings, items: u32) -> Case {
    let words = before_commit(held(settings, items));
    let again = Again::of(&words, STEP);
    let cells = settings.cells_at();
    let reads = cells..cells + CELL_WORDS * items as usize;
    Case {
        words,
        again,
        reads,
    }
}

/// Nanoseconds per call: compiled, fast, and reading.
fn times(case: &mut Case) -> [f64; 3] {
    let Case {
        words,
        again,
        reads,
    } = case;
    [
        per_call(CALLS, |n| again.make(&mut Compiled::default(), words, n)),
        per_call(CALLS, |n| again.make(&mut Fast, words, n)),
        per_call(CALLS, |n| {
            walk_again(&words[reads.clone()], sum_of_words, n)
        }),
    ]
}
