//! Editions of a pool's words. Edition 0 is paper 01 with K1 and K4: word 11 is
//! zero, and a worker has eight words. K5 made edition 1: "each worker gets a ninth
//! word", and "word 11 becomes the edition, set to 1 by make, and must be 1; an
//! image with 0 there isn't fit." K8 made edition 2, whose queues have windows of
//! several sizes: "each worker's seen bottom and width come after its ninth word",
//! and the sizes after the cells.

use super::layout;

#[derive(Clone, Copy, Debug, PartialEq, Eq, PartialOrd, Ord)]
pub enum Edition {
    Zero,
    One,
    Two,
}

/// What stands in word 11 of the current one.
pub const CURRENT_EDITION: u32 = Edition::CURRENT.word();

impl Edition {
    /// The one that the calls are about where none is named: the shipped one.
    pub const CURRENT: Edition = Edition::Two;

    /// Word 11.
    pub const fn word(self) -> u32 {
        match self {
            Edition::Zero => 0,
            Edition::One => 1,
            Edition::Two => 2,
        }
    }

    /// The one that a pool's word 11 names, if there is such a one.
    pub fn of_words(words: &[u32]) -> Option<Edition> {
        let named = words.get(layout::EDITION)?;
        let all = [Edition::Zero, Edition::One, Edition::Two];
        all.into_iter().find(|edition| edition.word() == *named)
    }

    /// Of each worker: without the ninth, with it, and with the tenth and eleventh.
    pub const fn worker_words(self) -> usize {
        match self {
            Edition::Zero => layout::FAILED_COMMITS,
            Edition::One => layout::SEEN_BOTTOM,
            Edition::Two => layout::SEEN_WIDTH + 1,
        }
    }

    /// After the cells.
    pub const fn size_words(self) -> usize {
        match self {
            Edition::Zero | Edition::One => 0,
            Edition::Two => layout::SIZES + layout::SIZE_WORDS * layout::MOST_LIVE as usize,
        }
    }

    /// A queue's windows have sizes of their own (K8); before, all have the pool's.
    pub const fn has_sizes(self) -> bool {
        self.size_words() > 0
    }
}
