//! Walks through a pool's held cells: the distance of a take in two ways, and the
//! same cells read in two ways. Each is a function of its own in the compiled code,
//! so that its loop can be found there.

use crate::loops::{count_of_cells, counted, sum_of_cells, sum_of_words};
use second::layout::{CELL_WORDS, SUB_WORDS};
use second::{Settings, QUEUE};

/// What a walk goes through.
pub struct Held<'a> {
    pub kind: u32,
    rows: u32,
    subs: &'a [[u32; SUB_WORDS]],
    cells: &'a [u32],
}

/// Held items but spacers with a stamp smaller than `stamp` in a queue, greater in a
/// stack: row by row, each row's cell by paper 01's formula, "cell j × R + (r - 1) mod R".
#[inline(never)]
pub fn by_rows(held: &Held, stamp: u32) -> u32 {
    if held.kind == QUEUE {
        held.rows(|other| other < stamp)
    } else {
        held.rows(|other| other > stamp)
    }
}

/// The same, as the library does it: in at most two straight runs of cells a sub.
#[inline(never)]
pub fn in_runs(held: &Held, stamp: u32) -> u32 {
    if held.kind == QUEUE {
        held.runs(|run| count_of_cells(run, |other| other < stamp))
    } else {
        held.runs(|run| count_of_cells(run, |other| other > stamp))
    }
}

/// The sum of the held values and stamps, cell by cell, in the same runs.
#[inline(never)]
pub fn read_cells(held: &Held) -> u32 {
    held.runs(sum_of_cells)
}

/// The same sum, of the words as they lie.
#[inline(never)]
pub fn read_words(held: &Held) -> u32 {
    held.runs(sum_of_words)
}

impl<'a> Held<'a> {
    pub fn of(settings: &Settings, words: &'a [u32]) -> Held<'a> {
        Held {
            kind: settings.kind,
            rows: settings.rows,
            subs: words[settings.subs_at()..settings.workers_at()]
                .as_chunks()
                .0,
            cells: &words[settings.cells()],
        }
    }

    #[inline]
    fn rows(&self, passes: impl Fn(u32) -> bool) -> u32 {
        let mut count = 0;
        for (j, [first, second]) in (0..).zip(self.subs) {
            let below = if self.kind == QUEUE { *second } else { 0 };
            for row in below + 1..=*first {
                let cell = j * self.rows + (row - 1) % self.rows;
                let cell = &self.cells[CELL_WORDS * cell as usize..][..CELL_WORDS];
                count += counted(cell, &passes);
            }
        }
        count
    }

    /// What `of_run` makes of each run, added up.
    #[inline]
    fn runs(&self, of_run: impl Fn(&[u32]) -> u32) -> u32 {
        let subs = self.subs.iter().enumerate();
        let of_subs = subs.map(|(j, [first, second])| {
            if self.kind == QUEUE {
                self.queue_runs(j, *second, first - second, &of_run)
            } else {
                of_run(self.run(j, 0, *first))
            }
        });
        of_subs.fold(0, u32::wrapping_add)
    }

    /// Up to the last cell, and on from the first.
    #[inline]
    fn queue_runs(&self, j: usize, taken: u32, held: u32, of_run: impl Fn(&[u32]) -> u32) -> u32 {
        if held == 0 {
            return 0;
        }
        let start = taken % self.rows;
        let room = self.rows - start;
        if held <= room {
            return of_run(self.run(j, start, held));
        }
        let to_last = of_run(self.run(j, start, room));
        to_last.wrapping_add(of_run(self.run(j, 0, held - room)))
    }

    /// So many cells of sub `j`, from the cell `start` on.
    #[inline]
    fn run(&self, j: usize, start: u32, cells: u32) -> &[u32] {
        let at = CELL_WORDS * (j * self.rows as usize + start as usize);
        &self.cells[at..][..CELL_WORDS * cells as usize]
    }
}
