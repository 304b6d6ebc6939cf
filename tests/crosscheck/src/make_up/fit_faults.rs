//! What can be wrong with the words of edition 2 (K8), a sentence of its fitness each: a fit
//! image in which nothing else is.

use super::live_windows;
use crate::rng::Rng;
use second::phase::{is_past_window, Side, Stage};
use second::{layout, Edition, Settings, QUEUE, STACK};

pub struct Fault {
    pub name: &'static str,
    pub kind: u32,
    /// None where these words do not lend themselves to it.
    pub spoil: fn(&mut Rng, &mut Words) -> Option<()>,
}

const fn line(name: &'static str, spoil: fn(&mut Rng, &mut Words) -> Option<()>) -> Fault {
    Fault {
        name,
        kind: QUEUE,
        spoil,
    }
}

const fn pile(name: &'static str, spoil: fn(&mut Rng, &mut Words) -> Option<()>) -> Fault {
    Fault {
        name,
        kind: STACK,
        spoil,
    }
}

pub const FAULTS: [Fault; 41] = [
    line("a set word of 2", |_, words| {
        words.set(layout::SIZE_SET, 2);
        Some(())
    }),
    line("a set word of 2^32 - 1", |_, words| {
        words.set(layout::SIZE_SET, u32::MAX);
        Some(())
    }),
    line("a next width of 0", |_, words| {
        words.set(layout::NEXT_WIDTH, 0);
        Some(())
    }),
    line("a next width of w + 1", |_, words| {
        words.set(layout::NEXT_WIDTH, words.settings.width + 1);
        Some(())
    }),
    line("a next depth of 0", |_, words| {
        words.set(layout::NEXT_DEPTH, 0);
        Some(())
    }),
    line("a next depth of one above half of R", |_, words| {
        words.set(layout::NEXT_DEPTH, words.above_half()?);
        Some(())
    }),
    line("a next depth of 65", |_, words| {
        words.set(layout::NEXT_DEPTH, words.above_64()?);
        Some(())
    }),
    line("no live window", |_, words| {
        let all = words.pair(0)..words.pair(layout::MOST_LIVE);
        words.words[all].fill(0);
        words.set(layout::LIVE, 0);
        Some(())
    }),
    line("17 live windows", |_, words| {
        (words.live() == layout::MOST_LIVE).then(|| words.set(layout::LIVE, 17))
    }),
    line("2^32 - 1 live windows", |_, words| {
        words.set(layout::LIVE, u32::MAX);
        Some(())
    }),
    line("a live width of 0", |rng, words| {
        let at = words.some_pair(rng);
        words.words[at + layout::SIZE_WIDTH] = 0;
        Some(())
    }),
    line("a live width of w + 1", |rng, words| {
        let at = words.some_pair(rng);
        words.words[at + layout::SIZE_WIDTH] = words.settings.width + 1;
        Some(())
    }),
    line("the take window's depth of 0", |_, words| {
        let at = words.pair(0);
        words.words[at + layout::SIZE_DEPTH] = 0;
        Some(())
    }),
    line("a later depth of 0, leading up to P", |rng, words| {
        words.set_later_depth(rng, 0)
    }),
    line("a later depth of one above half of R", |rng, words| {
        let depth = words.above_half()?;
        words.set_later_depth(rng, depth)
    }),
    line("a later depth of 65", |rng, words| {
        let depth = words.above_64()?;
        words.set_later_depth(rng, depth)
    }),
    line("the take window's depth above half of R", |_, words| {
        let depth = words.above_half()?;
        words.make_room_below(depth)?;
        let at = words.pair(0);
        words.words[at + layout::SIZE_DEPTH] = depth;
        Some(())
    }),
    line("a width beyond the live windows", |rng, words| {
        let at = words.some_pair_beyond(rng)?;
        words.words[at + layout::SIZE_WIDTH] = rng.pick(&[1, u32::MAX]);
        Some(())
    }),
    line("a depth beyond the live windows", |rng, words| {
        let at = words.some_pair_beyond(rng)?;
        words.words[at + layout::SIZE_DEPTH] = rng.pick(&[1, u32::MAX]);
        Some(())
    }),
    line("a pair too many", |_, words| {
        let last = words.live().checked_sub(1).filter(|last| *last > 0)?;
        let depth = words.words[words.pair(last) + layout::SIZE_DEPTH];
        words.set(layout::LIVE, last);
        words.words[layout::PUT_WINDOW] -= depth;
        Some(())
    }),
    line("a pair too few", |_, words| {
        let live = words.live();
        (live < layout::MOST_LIVE).then(|| words.set(layout::LIVE, live + 1))
    }),
    line("P above where the windows lead", |_, words| {
        let put = words.words[layout::PUT_WINDOW].checked_add(1)?;
        words.words[layout::PUT_WINDOW] = put;
        Some(())
    }),
    line("P below where the windows lead", |_, words| {
        words.words[layout::PUT_WINDOW] -= 1;
        Some(())
    }),
    line("windows that lead up to P modulo 2^32 alone", |_, words| {
        let above = words.words[layout::PUT_WINDOW] - words.words[layout::TAKE_WINDOW];
        words.words[layout::TAKE_WINDOW] = u32::MAX - above.checked_sub(1)?;
        words.words[layout::PUT_WINDOW] = 0;
        words.clear_subs(u32::MAX);
        Some(())
    }),
    line("a bottom below 0", |_, words| {
        let depth = words.words[words.pair(0) + layout::SIZE_DEPTH];
        words.put_take_window_at(depth - 1);
        words.clear_subs(0);
        Some(())
    }),
    line("a last put row below the last taken one", |rng, words| {
        let bottom = words.bottom();
        words.set_sub(rng, [bottom.checked_add(1)?, bottom.checked_add(2)?])
    }),
    line("a last put row at the bottom, some taken", |rng, words| {
        let bottom = words.bottom();
        words.set_sub(rng, [bottom, bottom.checked_sub(1)?])
    }),
    line(
        "a last put row below the bottom, some taken",
        |rng, words| {
            let bottom = words.bottom();
            words.set_sub(rng, [bottom.checked_sub(1)?, bottom.checked_sub(2)?])
        },
    ),
    line("more than R rows above the last taken one", |rng, words| {
        let taken = words.bottom().checked_add(rng.below(3))?;
        let put = taken.checked_add(words.settings.rows + 1)?;
        words.set_sub(rng, [put, taken])
    }),
    line("more than R rows above the bottom", |rng, words| {
        let bottom = words.bottom();
        let put = bottom.checked_add(words.settings.rows + 1)?;
        let taken = bottom.saturating_sub(1 + rng.below(9));
        words.set_sub(rng, [put, taken])
    }),
    line("a seen width of 0", |rng, words| {
        let at = words.some_worker_past_window(rng);
        words.words[at + layout::SEEN_WIDTH] = 0;
        words.words[at + layout::INDEX] = 0;
        words.words[at + layout::SCAN] = 0;
        Some(())
    }),
    line("a seen width of w + 1", |rng, words| {
        let at = words.some_worker_past_window(rng);
        words.words[at + layout::SEEN_WIDTH] = words.settings.width + 1;
        Some(())
    }),
    line("an index at the seen width", |rng, words| {
        let at = words.some_worker_past_window(rng);
        let narrow = rng.between(1, words.settings.width.checked_sub(1)?.max(1));
        words.words[at + layout::SEEN_WIDTH] = narrow;
        words.words[at + layout::INDEX] = narrow;
        words.words[at + layout::SCAN] = 0;
        Some(())
    }),
    line("a scan at the seen width", |rng, words| {
        let at = words.some_worker_past_window(rng);
        let narrow = rng.between(1, words.settings.width.checked_sub(1)?.max(1));
        words.words[at + layout::SEEN_WIDTH] = narrow;
        words.words[at + layout::INDEX] = 0;
        words.words[at + layout::SCAN] = narrow;
        Some(())
    }),
    pile("a stack's next width", |rng, words| words.not_zero(rng, 0)),
    pile("a stack's next depth", |rng, words| words.not_zero(rng, 1)),
    pile("a stack's set word", |rng, words| words.not_zero(rng, 2)),
    pile("a stack's live windows", |rng, words| {
        words.not_zero(rng, 3)
    }),
    pile("a stack's size of a window", |rng, words| {
        let sizes = layout::SIZES as u32..Edition::CURRENT.size_words() as u32;
        let some = rng.between(sizes.start, sizes.end - 1);
        let which = rng.pick(&[sizes.start, some, sizes.end - 1]);
        words.not_zero(rng, which as usize)
    }),
    pile("a stack's worker's seen bottom", |rng, words| {
        let at = words.some_worker(rng);
        words.words[at + layout::SEEN_BOTTOM] = rng.pick(&[1, u32::MAX]);
        Some(())
    }),
    pile("a stack's worker's seen width", |rng, words| {
        let at = words.some_worker(rng);
        words.words[at + layout::SEEN_WIDTH] = rng.pick(&[1, words.settings.width]);
        Some(())
    }),
];

/// A fit image of the current edition.
pub struct Words {
    pub settings: Settings,
    pub words: Vec<u32>,
}

impl Words {
    fn size_word(&self, which: usize) -> usize {
        self.settings.sizes_at_in(Edition::CURRENT) + which
    }

    fn set(&mut self, which: usize, word: u32) {
        let at = self.size_word(which);
        self.words[at] = word;
    }

    fn not_zero(&mut self, rng: &mut Rng, which: usize) -> Option<()> {
        self.set(which, rng.pick(&[1, 2, u32::MAX]));
        Some(())
    }

    fn live(&self) -> u32 {
        self.words[self.size_word(layout::LIVE)]
    }

    fn pair(&self, k: u32) -> usize {
        self.size_word(layout::SIZES) + layout::SIZE_WORDS * k as usize
    }

    fn some_pair(&self, rng: &mut Rng) -> usize {
        self.pair(rng.below(self.live()))
    }

    fn some_pair_beyond(&self, rng: &mut Rng) -> Option<usize> {
        let beyond = layout::MOST_LIVE - self.live();
        let some = (beyond > 0).then(|| rng.below(beyond))?;
        Some(self.pair(self.live() + rng.pick(&[0, some, beyond - 1])))
    }

    fn above_half(&self) -> Option<u32> {
        let half = self.settings.rows / 2;
        (half < 64).then_some(half + 1)
    }

    fn above_64(&self) -> Option<u32> {
        (self.settings.rows / 2 > 64).then_some(65)
    }

    /// Of a window after the take window; P stays where the windows lead.
    fn set_later_depth(&mut self, rng: &mut Rng, depth: u32) -> Option<()> {
        let later = self.live().checked_sub(1).filter(|later| *later > 0)?;
        let at = self.pair(1 + rng.below(later)) + layout::SIZE_DEPTH;
        let put = self.words[layout::PUT_WINDOW] - self.words[at];
        self.words[layout::PUT_WINDOW] = put.checked_add(depth)?;
        self.words[at] = depth;
        Some(())
    }

    fn bottom(&self) -> u32 {
        live_windows::take_bottom(&self.settings, Edition::CURRENT, &self.words)
    }

    /// Its top; P stays as far above it.
    fn put_take_window_at(&mut self, top: u32) {
        let above = self.words[layout::PUT_WINDOW] - self.words[layout::TAKE_WINDOW];
        self.words[layout::TAKE_WINDOW] = top;
        self.words[layout::PUT_WINDOW] = top + above;
    }

    /// The take window's top is high enough for this depth, and no sub holds an item.
    fn make_room_below(&mut self, depth: u32) -> Option<()> {
        let top = self.words[layout::TAKE_WINDOW];
        (top >= depth).then(|| self.clear_subs(top))
    }

    /// Both last rows.
    fn clear_subs(&mut self, row: u32) {
        let subs = self.settings.subs_at()..self.settings.workers_at();
        self.words[subs].fill(row);
    }

    fn set_sub(&mut self, rng: &mut Rng, [put, taken]: [u32; 2]) -> Option<()> {
        let j = rng.below(self.settings.width) as usize;
        let at = self.settings.subs_at() + layout::SUB_WORDS * j;
        self.words[at + layout::ITEMS_PUT] = put;
        self.words[at + layout::ITEMS_TAKEN] = taken;
        Some(())
    }

    fn some_worker(&self, rng: &mut Rng) -> usize {
        let worker = rng.below(self.settings.workers) as usize;
        self.settings.workers_at() + layout::WORKER_WORDS * worker
    }

    fn some_worker_past_window(&mut self, rng: &mut Rng) -> usize {
        let at = self.some_worker(rng);
        if !is_past_window(self.words[at + layout::PHASE]) {
            let side = rng.pick(&[Side::Put, Side::Take]);
            let stage = rng.pick(&[Stage::Read, Stage::Commit, Stage::Shift]);
            self.words[at + layout::PHASE] = side.phase(stage);
        }
        at
    }
}
