//! Loops over a run of cells, or of words, that lie one after the other.

use second::layout::{CELL_STAMP, CELL_VALUE, CELL_WORDS};
use second::SPACER;

/// 1 where the item of a cell counts: both tests are made, without a branch.
#[inline]
pub fn counted(cell: &[u32], passes: impl Fn(u32) -> bool) -> u32 {
    u32::from((cell[CELL_VALUE] != SPACER) & passes(cell[CELL_STAMP]))
}

pub fn count_of_cells(cells: &[u32], passes: impl Fn(u32) -> bool) -> u32 {
    let cells = cells.chunks_exact(CELL_WORDS);
    cells.fold(0, |n, cell| n + counted(cell, &passes))
}

/// The same with a branch: a stamp is read only where the value is not 0.
pub fn count_by_branches(cells: &[u32], passes: impl Fn(u32) -> bool) -> u32 {
    let cells = cells.chunks_exact(CELL_WORDS);
    let counts = |cell: &[u32]| cell[CELL_VALUE] != SPACER && passes(cell[CELL_STAMP]);
    cells.fold(0, |n, cell| n + u32::from(counts(cell)))
}

/// Spacers too: what the value's test costs is seen beside it.
pub fn count_of_stamps(cells: &[u32], passes: impl Fn(u32) -> bool) -> u32 {
    let cells = cells.chunks_exact(CELL_WORDS);
    cells.fold(0, |n, cell| n + u32::from(passes(cell[CELL_STAMP])))
}

pub fn count_of_words(words: &[u32], passes: impl Fn(u32) -> bool) -> u32 {
    words.iter().fold(0, |n, word| n + u32::from(passes(*word)))
}

/// In one sum: where values and stamps have one each, the compiler reads a single cell a
/// turn, which takes six times as long.
pub fn sum_of_cells(cells: &[u32]) -> u32 {
    let cells = cells.chunks_exact(CELL_WORDS);
    cells.fold(0, |sum, cell| {
        sum.wrapping_add(cell[CELL_VALUE])
            .wrapping_add(cell[CELL_STAMP])
    })
}

pub fn sum_of_stamps(cells: &[u32]) -> u32 {
    let cells = cells.chunks_exact(CELL_WORDS);
    cells.fold(0, |sum, cell| sum.wrapping_add(cell[CELL_STAMP]))
}

/// Words added up in a turn of the next loop. With half as many it is so short that it
/// takes up to twice as long where it lies across the end of a cache line.
const TURN: usize = 16;

/// The plainest read of words: as they lie, each to the sum of its place in a turn.
#[inline(never)]
pub fn sum_of_words(words: &[u32]) -> u32 {
    let (turns, rest) = words.as_chunks::<TURN>();
    let mut sums = [0; TURN];
    for turn in turns {
        for (sum, word) in sums.iter_mut().zip(turn) {
            *sum = u32::wrapping_add(*sum, *word);
        }
    }
    sums.iter()
        .chain(rest)
        .fold(0, |sum, word| sum.wrapping_add(*word))
}
