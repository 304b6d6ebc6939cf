//! Images of any edition, and how many words of them are about to be enough (K5, K6).

use super::{image, junk};
use crate::rng::Rng;
use second::{layout, Edition, Settings};

/// All that there are, one further off, and the greatest.
pub const EDITIONS: [u32; 5] = [0, 1, 2, 7, u32::MAX];

/// With a word 11, and without.
pub const ABOUT_HEADER: [usize; 2] = [layout::HEADER_WORDS - 1, layout::HEADER_WORDS];

/// With the words of this edition, and fit but for word 11 and the number of words.
pub fn image(
    rng: &mut Rng,
    (settings, edition): (&Settings, Edition),
    word_11: u32,
    len: usize,
) -> Vec<u32> {
    let words = image::of_edition(rng, settings, edition);
    cut(rng, words, word_11, len)
}

/// These words with another word 11, cut or with words beyond them.
pub fn cut(rng: &mut Rng, mut words: Vec<u32>, word_11: u32, len: usize) -> Vec<u32> {
    words[layout::EDITION] = word_11;
    words.resize(len, junk::word(rng));
    words
}

/// About the needed words of each edition: without the workers' ninth ones, with them, and
/// with all that edition 2 has.
pub fn lengths(settings: &Settings) -> Vec<usize> {
    let editions = [Edition::Zero, Edition::One, Edition::Two];
    let needed = editions.map(|edition| settings.needed_words_in(edition));
    let about = needed.map(|needed| [needed - 1, needed, needed + 1]);
    about.concat()
}
