//! A pool's needed words in the other one of editions 0 and 1, ninth word by ninth
//! word (K5, K6); and what may be wrong with a move's source.

use super::failed_commits::ninth_words;
use second::{layout, Edition, Settings, TOO_SHORT, UNFIT, WRONG_EDITION};

/// Without the ninth words.
pub fn back(one: &[u32]) -> Vec<u32> {
    let settings = Settings::of_words(one);
    let mut words = one[..settings.needed_words_in(Edition::One)].to_vec();
    let ninth: Vec<usize> = ninth_words(Edition::One, &settings).collect();
    for at in ninth.into_iter().rev() {
        words.remove(at);
    }
    words[layout::EDITION] = 0;
    words
}

/// With ninth words of 0.
pub fn on(zero: &[u32]) -> Vec<u32> {
    let settings = Settings::of_words(zero);
    let mut words = zero[..settings.needed_words_in(Edition::Zero)].to_vec();
    for at in ninth_words(Edition::One, &settings) {
        words.insert(at, 0);
    }
    words[layout::EDITION] = 1;
    words
}

/// A move's source from make, and how many of its words are lent.
pub struct Source {
    pub words: Vec<u32>,
    pub len: usize,
}

impl Source {
    /// All of them.
    pub fn whole(words: Vec<u32>) -> Self {
        let len = words.len();
        Source { words, len }
    }

    pub fn lent(&self) -> &[u32] {
        &self.words[..self.len]
    }

    /// Makes one thing wrong, with `edition` for another edition; what only some moves
    /// refuse is left to the caller, with false.
    pub fn spoil(&mut self, fault: &str, settings: &Settings, last: usize, edition: u32) -> bool {
        let words = &mut self.words;
        match fault {
            "11 words" => self.len = 11,
            "settings" => words[layout::SHIFT] = settings.depth + 1,
            "stride" => words[layout::STRIDE] = settings.width,
            "edition" => words[layout::EDITION] = edition,
            "needed words" => self.len = self.len.min(words.len() - 1),
            "sub" => words[settings.workers_at() - layout::SUB_WORDS] = settings.rows + 1,
            "phase" => words[last + layout::PHASE] = 7,
            "index" => words[last + layout::INDEX] = settings.width,
            "scan" => words[last + layout::SCAN] = settings.width,
            _ => return false,
        }
        true
    }
}

/// What can be wrong with any move's source, in the order of the checks, and the number.
pub const SOURCE_FAULTS: [(&str, u32); 9] = [
    ("11 words", TOO_SHORT),
    ("settings", UNFIT),
    ("stride", UNFIT),
    ("edition", WRONG_EDITION),
    ("needed words", TOO_SHORT),
    ("sub", UNFIT),
    ("phase", UNFIT),
    ("index", UNFIT),
    ("scan", UNFIT),
];

/// Each of these faults alone, and each two at once, by the number of the first: after those
/// of any source these.
pub fn stand_in_order(more: &[(&str, u32)], refusal: impl Fn(&[&str]) -> u32) {
    let faults = [&SOURCE_FAULTS, more].concat();
    for (at, (first, number)) in faults.iter().enumerate() {
        assert_eq!(refusal(&[first]), *number, "{first}");
        for (second, _) in &faults[at + 1..] {
            assert_eq!(refusal(&[first, second]), *number, "{first}, {second}");
        }
    }
}
