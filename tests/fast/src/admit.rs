//! The check of a fit pool, and its words in parts.

use crate::edition::{has_sizes, of_worker_words};
use crate::sizes::{self, Sizes};
use crate::Header;
use second::layout::{self, HEADER_WORDS};
use second::{Settings, QUEUE, TOO_SHORT, UNFIT};

/// Bits of the phases of each kind: 0 to 6 and 9 to 14; queues have no 3, 6
/// or 11.
const STACK_PHASES: u32 = 0x7e7f;
const QUEUE_PHASES: u32 = STACK_PHASES & !(1 << 3 | 1 << 6 | 1 << 11);

/// Two bits for each phase of a queue, 0 to 15: it is one, and it is past the window phase.
const QUEUE_CODES: u32 = {
    let mut codes = 0;
    let mut phase = 0;
    while phase < 16 {
        let known = QUEUE_PHASES >> phase & 1;
        let past = known & (phase != 0 && phase != 1 && phase != 9) as u32;
        codes |= (known | past << 1) << (2 * phase);
        phase += 1;
    }
    codes
};

/// With N words for each worker.
pub struct Parts<'a, const N: usize> {
    pub header: &'a mut Header,
    pub subs: &'a mut [[u32; 2]],
    pub workers: &'a mut [[u32; N]],
    pub cells: &'a mut [[u32; 2]],
    /// The words after the cells, where there are any.
    pub sizes: &'a mut [u32],
}

impl<const N: usize> Parts<'_, N> {
    /// The words after the cells, where there are any.
    pub fn sizes(&mut self) -> &mut Sizes {
        sizes::of(self.sizes)
    }

    /// The take window's bottom; 0 where a queue's words are counts.
    pub fn take_bottom(&self) -> u32 {
        take_bottom::<N>(self.header, self.sizes)
    }
}

fn take_bottom<const N: usize>(header: &Header, sizes: &[u32]) -> u32 {
    if has_sizes(N) {
        header[layout::TAKE_WINDOW] - sizes[layout::SIZES + layout::SIZE_DEPTH]
    } else {
        0
    }
}

/// The parts are put together last: until then they stay in registers.
#[inline(always)]
pub fn admit<const N: usize>(words: &mut [u32]) -> Result<Parts<'_, N>, u32> {
    let edition = of_worker_words(N);
    let len = words.len();
    let Some((header, rest)) = words.split_first_chunk_mut::<HEADER_WORDS>() else {
        return Err(TOO_SHORT);
    };
    let settings = Settings::of_words(header);
    if !settings.within_limits_in(edition) || header[layout::EDITION] != edition.word() {
        return Err(UNFIT);
    }
    let Settings { width, rows, .. } = settings;
    let cells = 2 * width as usize * rows as usize;
    let workers = N * settings.workers as usize;
    let needed = HEADER_WORDS + 2 * width as usize + workers + cells;
    if len < needed + edition.size_words() {
        return Err(TOO_SHORT);
    }
    let (subs, rest) = rest.split_at_mut(2 * width as usize);
    let (workers, rest) = rest.split_at_mut(workers);
    let (cells, rest) = rest.split_at_mut(cells);
    let subs = subs.as_chunks_mut().0;
    let workers = workers.as_chunks_mut().0;
    let sizes = &mut rest[..edition.size_words()];
    let fits = if settings.kind == QUEUE {
        (!has_sizes(N) || sizes::fit(&settings, header, sizes))
            && queue_subs_fit::<N>(rows, take_bottom::<N>(header, sizes), subs)
                & queue_workers_fit(width, workers)
    } else {
        let zeros = sizes::are_zero(sizes);
        zeros & stack_subs_fit(rows, subs) & stack_workers_fit(width, workers)
    };
    if !fits {
        return Err(UNFIT);
    }
    Ok(Parts {
        header,
        subs,
        workers,
        cells: cells.as_chunks_mut().0,
        sizes,
    })
}

/// With a bottom of 0 what is asked of counts.
fn queue_subs_fit<const N: usize>(rows: u32, take_bottom: u32, subs: &[[u32; 2]]) -> bool {
    subs.iter().fold(true, |fit, [put, taken]| {
        if !has_sizes(N) {
            return fit & (taken <= put) & (put.wrapping_sub(*taken) <= rows);
        }
        let higher = (*taken).max(take_bottom);
        let above = (*put > higher) & (put.wrapping_sub(higher) <= rows);
        fit & (above | (put == taken))
    })
}

fn stack_subs_fit(rows: u32, subs: &[[u32; 2]]) -> bool {
    subs.iter()
        .fold(true, |fit, [held, _]| fit & (*held <= rows))
}

/// The bit of a phase in such bits.
fn bit(phases: u32, phase: u32) -> bool {
    (phases >> (phase & 31)) & u32::from(phase < 32) & 1 == 1
}

/// Past its window phase index and scan are below the seen width, and that is 1 to w.
fn queue_workers_fit<const N: usize>(width: u32, workers: &[[u32; N]]) -> bool {
    workers.iter().fold(true, |fit, worker| {
        let phase = worker[layout::PHASE];
        let (index, scan) = (worker[layout::INDEX], worker[layout::SCAN]);
        let code = QUEUE_CODES >> (2 * (phase & 15));
        let known = (phase < 16) & (code & 1 == 1);
        let mut visited = width;
        if has_sizes(N) {
            let past = 0_u32.wrapping_sub(code >> 1 & 1);
            visited = (width & !past) | (worker[layout::SEEN_WIDTH] & past);
        }
        fit & known & (visited <= width) & (index < visited) & (scan < visited)
    })
}

fn stack_workers_fit<const N: usize>(width: u32, workers: &[[u32; N]]) -> bool {
    workers.iter().fold(true, |fit, worker| {
        let seen = &worker[layout::SEEN_BOTTOM..];
        let zeros = seen.iter().fold(0, |all, word| all | word) == 0;
        fit & bit(STACK_PHASES, worker[layout::PHASE])
            & (worker[layout::INDEX] < width)
            & (worker[layout::SCAN] < width)
            & zeros
    })
}
