//! A queue's windows. K8 gives each "its own width .. and depth .., a bottom row,
//! and a top of bottom plus depth". Editions 0 and 1 are the case in which every
//! window has the pool's sizes: nothing is stored of them, there may be any number,
//! and no row is held against a bottom, since a sub's words are counts.

use super::layout;
use super::phase::Side;
use super::size::Size;
use super::view::Pool;

/// A live one.
pub(crate) struct Window {
    pub bottom: u32,
    pub top: u32,
    pub size: Size,
}

impl Pool<'_> {
    /// It is a queue whose windows have sizes of their own.
    pub fn has_sizes(&self) -> bool {
        self.is_queue() && self.edition.has_sizes()
    }

    /// The size of the next put window.
    pub fn next_size(&self) -> Size {
        if !self.has_sizes() {
            return Size::of_pool(&self.settings);
        }
        Size {
            width: self.words[self.size_word(layout::NEXT_WIDTH)],
            depth: self.words[self.size_word(layout::NEXT_DEPTH)],
        }
    }

    pub fn set_next_size(&mut self, size: Size) {
        let at = self.size_word(layout::NEXT_WIDTH);
        self.words[at] = size.width;
        let at = self.size_word(layout::NEXT_DEPTH);
        self.words[at] = size.depth;
    }

    /// The size of live window k, the take window being 0.
    pub fn live_size(&self, k: u32) -> Size {
        if !self.has_sizes() {
            return Size::of_pool(&self.settings);
        }
        let at = self.pair(k);
        Size {
            width: self.words[at + layout::SIZE_WIDTH],
            depth: self.words[at + layout::SIZE_DEPTH],
        }
    }

    pub fn set_live_size(&mut self, k: u32, size: Size) {
        let at = self.pair(k);
        self.words[at + layout::SIZE_WIDTH] = size.width;
        self.words[at + layout::SIZE_DEPTH] = size.depth;
    }

    /// How many windows are live, where they have sizes.
    pub fn live(&self) -> u32 {
        self.words[self.size_word(layout::LIVE)]
    }

    pub fn set_live(&mut self, live: u32) {
        let at = self.size_word(layout::LIVE);
        self.words[at] = live;
    }

    /// The size of the put window, the last one, or of the take window, the first.
    pub fn window_size(&self, side: Side) -> Size {
        match side {
            Side::Put if self.has_sizes() => self.live_size(self.live() - 1),
            _ => self.live_size(0),
        }
    }

    /// T less its depth; modulo 2^32 where no fit asks for more.
    pub fn take_bottom(&self) -> u32 {
        let depth = self.window_size(Side::Take).depth;
        self.words[layout::TAKE_WINDOW].wrapping_sub(depth)
    }

    /// "The higher of the sub's last put row and the seen window's bottom, a take
    /// likewise"; and of other rows and bottoms.
    pub fn higher(&self, row: u32, bottom: u32) -> u32 {
        if self.has_sizes() {
            row.max(bottom)
        } else {
            row
        }
    }

    /// "Fewer than 16 live windows".
    pub fn may_have_another_window(&self) -> bool {
        !self.has_sizes() || self.live() < layout::MOST_LIVE
    }

    /// A put window of the next size above the last one.
    pub fn add_window(&mut self) {
        let size = self.next_size();
        let top = self.words[layout::PUT_WINDOW].wrapping_add(size.depth);
        self.words[layout::PUT_WINDOW] = top;
        if self.has_sizes() {
            let live = self.live();
            self.set_live_size(live, size);
            self.set_live(live + 1);
        }
    }

    /// The window after the take window becomes the take window.
    pub fn drop_take_window(&mut self) {
        let depth = self.live_size(1).depth;
        let top = self.words[layout::TAKE_WINDOW].wrapping_add(depth);
        self.words[layout::TAKE_WINDOW] = top;
        if self.has_sizes() {
            let live = self.live();
            let pairs = self.pair(0)..self.pair(live);
            self.words[pairs].rotate_left(layout::SIZE_WORDS);
            let none = Size { width: 0, depth: 0 };
            self.set_live_size(live - 1, none);
            self.set_live(live - 1);
        }
    }

    /// Those of a fit queue whose windows have sizes, from the take window on.
    pub fn live_windows(&self) -> Vec<Window> {
        let mut bottom = self.take_bottom();
        let mut windows = Vec::new();
        for k in 0..self.live() {
            let size = self.live_size(k);
            let top = bottom.wrapping_add(size.depth);
            windows.push(Window { bottom, top, size });
            bottom = top;
        }
        windows
    }

    /// The word after the cells called `which` (layout::NEXT_WIDTH and so on).
    pub fn size_word(&self, which: usize) -> usize {
        self.settings.sizes_at_in(self.edition) + which
    }

    fn pair(&self, k: u32) -> usize {
        self.size_word(layout::SIZES) + layout::SIZE_WORDS * k as usize
    }
}
