//! The distance of a take by itself: by rows and in runs, in loops of Rust's, and in
//! the compiled library, beside plain reads of the same cells.

use crate::again::per_call;
use crate::commit::Commit;
use crate::image::largest;
use crate::measure::{in_turn, medians};
use crate::spacers::SHARE;
use crate::tables::KINDS;
use crate::walks::{by_rows, in_runs, read_cells, read_words};

/// Calls timed per round and way, at most, and items that they go through.
const CALLS: u32 = 2_000;
const ITEMS: u32 = 1 << 20;

const TEXT: &str = "\
## The distance, by rows and in runs

Nanoseconds for the distance of one take, over 16, 256 and 4,096 held items; a sub has
1,024 rows at most, so w 2 holds 2,048 at most. Pools have as many rows as their cells
allow, and 8 workers. Every sub holds equally many items: a queue's go past the last cell
and on from the first, two runs (one where it is one item), a stack's are one run from
the first cell on. One item in ten is a spacer, of value 0. The take passes over about
half of all, and counts those that are no spacers.

- By rows, in runs: loops of Rust's that count. By rows, each held row takes a remainder;
  in runs, each sub of a queue takes one.
- Compiled: the library's last step of the take, less the same step where another worker
  was first and the commit is lost. All but the distance and the item is in both; what it
  takes to find the item, and to write its sub's words and the fields, is in this as well.
- Plain read: a loop of Rust's that adds up value and stamp of each of the same cells, in
  the same runs: in vector code, four values beside each other and four stamps, as the
  distance has them. The goal, at most 1.5 times, is held to this.
- As words: the sum of the same words as they lie, in the same runs. It does not tell
  values from stamps, and so is spared what it takes to get them apart.
- Last step: the library's, as a whole; the share is that of the compiled distance.

| kind | w | held | by rows | in runs | rows / runs | compiled | plain read \
| times a plain read | as words | times as words | last step | share |
|---|---:|---:|---:|---:|---:|---:|---:|---:|---:|---:|---:|---:|";

pub fn table() {
    println!("{TEXT}");
    let mut greatest = [0.0_f64; 2];
    for (kind, name) in KINDS {
        for width in [2, 4, 8, 16] {
            let settings = largest(kind, width);
            let most = width * settings.rows;
            for items in [16, 256, most] {
                let commit = Commit::of(settings, items, SHARE);
                let [rows, runs, saved, compiled, read, times, words, times_words, step, share] =
                    measure(commit, CALLS.min(ITEMS / items));
                println!(
                    "| {name} | {width} | {items} | {rows:.0} | {runs:.0} | {saved:.1} \
                     | {compiled:.0} | {read:.0} | {times:.2} | {words:.0} | {times_words:.2} \
                     | {step:.0} | {share:.0}% |"
                );
                if items == most {
                    greatest = [greatest[0].max(times), greatest[1].max(times_words)];
                }
            }
        }
    }
    let [times, times_words] = greatest;
    println!(
        "\nAt 4,096 items (w 2: 2,048), the compiled distance takes at most {times:.2} times \
         a plain read;\nthe goal is 1.5. Beside the same words in one sum, it takes at most \
         {times_words:.2} times as long.\n"
    );
}

/// The table's figures, each the median over the rounds.
fn measure(mut commit: Commit, calls: u32) -> [f64; 10] {
    let rounds = in_turn(|way| {
        per_call(calls, |n| match way {
            0 => commit.walk(by_rows, n),
            1 => commit.walk(in_runs, n),
            2 => commit.walk(|held, _| read_cells(held), n),
            3 => commit.walk(|held, _| read_words(held), n),
            4 => commit.take(n),
            _ => commit.lose(n),
        })
    });
    medians(&rounds, |[rows, runs, read, words, step, lost]| {
        let compiled = step - lost;
        let share = 100.0 * compiled / step;
        [
            rows,
            runs,
            rows / runs,
            compiled,
            read,
            compiled / read,
            words,
            compiled / words,
            step,
            share,
        ]
    })
}
