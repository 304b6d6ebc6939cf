//! Values: how many of them are spacers (K4), and what the others are.

use super::junk;
use crate::rng::Rng;
use second::SPACER;

/// How many percent of the values are spacers, in a run, an image or a run file.
pub const SHARES: [u32; 4] = [0, 10, 50, 100];

#[derive(Clone, Copy)]
pub struct Values {
    pub share: u32,
}

impl Values {
    pub fn new(rng: &mut Rng) -> Values {
        let share = rng.pick(&SHARES);
        Values { share }
    }

    /// A spacer, or a word as any place may hold.
    pub fn word(self, rng: &mut Rng) -> u32 {
        self.spacer_or(rng, junk::word)
    }

    /// The same in the 22 bits of a run file.
    pub fn of_run_file(self, rng: &mut Rng) -> u32 {
        self.spacer_or(rng, |rng| {
            let word = junk::word(rng);
            rng.pick(&[word >> 10, word & 0x3f_ffff])
        })
    }

    /// A spacer by the share, else a word that is none.
    pub fn spacer_or(self, rng: &mut Rng, word: impl Fn(&mut Rng) -> u32) -> u32 {
        if rng.chance(self.share) {
            SPACER
        } else {
            word(rng).max(SPACER + 1)
        }
    }
}
