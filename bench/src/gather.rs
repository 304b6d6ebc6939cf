//! What a loop over cells pays for: the values beside the stamps alone, and that
//! stamps lie two words apart, beside words that lie one after the other.

use crate::again::{per_call, walk_again};
use crate::image::{largest, spread};
use crate::loops::{
    count_by_branches, count_of_cells, count_of_stamps, count_of_words, sum_of_cells,
    sum_of_stamps, sum_of_words,
};
use crate::measure::{in_turn, medians};
use crate::spacers::SHARE;
use second::QUEUE;
use std::array::from_fn;
use std::hint::black_box;

/// Calls timed per round and way.
const CALLS: u32 = 500;
/// Cells gone through.
const CELLS: u32 = 4_096;

const TEXT: &str = "\
Nanoseconds for loops of Rust's over 4,096 cells in one run, one in ten a spacer's.

- Value and stamp: the sum of both; the count of stamps below one of them (queue) or above
  it (stack) whose value is not 0, which is the distance's loop.
- Stamp alone: the same of every second word, whatever the values.
- As many words: the same of 4,096 words that lie one after the other.
- For the values, for the gather: what value and stamp take more than the stamp alone, and
  the stamp alone more than as many words, as shares of the first column; each is the
  median of the rounds' shares.
- All words: the same of all 8,192 words of these cells, as they lie.

| loop | value and stamp | stamp alone | as many words | for the values | for the gather \
| all words |
|---|---:|---:|---:|---:|---:|---:|";

pub fn table() {
    println!("{TEXT}");
    let settings = largest(QUEUE, 4);
    let words = spread(&settings, CELLS, SHARE);
    let rounds = rounds(&words[settings.cells()]);
    for (row, name) in ["sum", "count, queue", "count, stack"].iter().enumerate() {
        let [both, stamps, few, values, gather, all] = medians(&rounds, |times| {
            let [both, stamps, few, all] = from_fn(|at| times[4 * row + at]);
            let share = |more: f64| 100.0 * more / both;
            let (values, gather) = (share(both - stamps), share(stamps - few));
            [both, stamps, few, values, gather, all]
        });
        println!(
            "| {name} | {both:.0} | {stamps:.0} | {few:.0} | {values:.0}% | {gather:.0}% | {all:.0} |"
        );
    }
    let [queue, stack] = medians(&rounds, |times| {
        [times[12] / times[4], times[13] / times[8]]
    });
    println!(
        "\nWhere a stamp is read only if the value is not 0, the count is not vector code, and takes\n\
         {queue:.1} times as long (queue) and {stack:.1} times (stack).\n"
    );
}

/// Times of the sums, of a queue's counts and of a stack's: each of the cells, of the
/// stamps alone, of as many words and of all. Then of both counts with a branch.
fn rounds(cells: &[u32]) -> Vec<[f64; 14]> {
    let stamp = black_box(CELLS / 2);
    let older = |other| other < stamp;
    let newer = |other| other > stamp;
    in_turn(|way| {
        per_call(CALLS, |n| match way {
            0..4 => sums(cells, way, n),
            4..8 => counts(cells, older, way % 4, n),
            8..12 => counts(cells, newer, way % 4, n),
            12 => walk_again(cells, |cells| count_by_branches(cells, older), n),
            _ => walk_again(cells, |cells| count_by_branches(cells, newer), n),
        })
    })
}

fn sums(cells: &[u32], of: usize, calls: u32) {
    match of {
        0 => walk_again(cells, sum_of_cells, calls),
        1 => walk_again(cells, sum_of_stamps, calls),
        2 => walk_again(&cells[..CELLS as usize], sum_of_words, calls),
        _ => walk_again(cells, sum_of_words, calls),
    }
}

fn counts(cells: &[u32], passes: impl Fn(u32) -> bool, of: usize, calls: u32) {
    let words = |words: &[u32]| count_of_words(words, &passes);
    match of {
        0 => walk_again(cells, |cells| count_of_cells(cells, &passes), calls),
        1 => walk_again(cells, |cells| count_of_stamps(cells, &passes), calls),
        2 => walk_again(&cells[..CELLS as usize], words, calls),
        _ => walk_again(cells, words, calls),
    }
}
