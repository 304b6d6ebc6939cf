//! The edition in word 11, and the number of words with a ninth one for each worker,
//! without (K5), and with all that edition 2 has (K8): which of them a call goes by, in the
//! order of the refusals.

use crate::coverage::fitness;
use second::{layout, Edition, Settings, CURRENT_EDITION, NO_WORKER, TOO_SHORT, UNFIT};

/// What a call got, and its answer's number.
pub struct Given<'a> {
    pub settings: Settings,
    pub words: &'a [u32],
    pub number: u32,
}

pub type Corner = (&'static str, fn(&Given) -> bool);

/// Settings and edition come first: with 21 they are as they should be.
pub const BY_LENGTH: [Corner; 9] = [
    ("21 a word short of eight for a worker", |given| {
        is_short(given) && given.words.len() + 1 == with_eight_each(given)
    }),
    ("21 with eight words for a worker", |given| {
        is_short(given) && given.words.len() == with_eight_each(given)
    }),
    ("21 a word above eight for a worker", |given| {
        is_short(given) && given.words.len() == with_eight_each(given) + 1
    }),
    ("21 a word short of nine for a worker", |given| {
        is_short(given) && given.words.len() + 1 == with_nine_each(given)
    }),
    ("21 with nine words for a worker", |given| {
        is_short(given) && given.words.len() == with_nine_each(given)
    }),
    ("21 a word above nine for a worker", |given| {
        is_short(given) && given.words.len() == with_nine_each(given) + 1
    }),
    ("21 a word short of the needed ones", |given| {
        is_short(given) && given.words.len() + 1 == given.settings.needed_words()
    }),
    ("let pass with the needed words", |given| {
        passes(given) && given.words.len() == given.settings.needed_words()
    }),
    ("let pass with a word above the needed ones", |given| {
        passes(given) && given.words.len() == given.settings.needed_words() + 1
    }),
];

pub const BY_EDITION: [Corner; 11] = [
    ("23 for edition 0 alone", |given| is_alone(given, 0)),
    ("23 for edition 1 alone", |given| is_alone(given, 1)),
    ("23 for the greatest edition alone", |given| {
        is_alone(given, u32::MAX)
    }),
    ("23 for another edition alone", |given| {
        let edition = given.words[layout::EDITION];
        (3..u32::MAX).contains(&edition) && is_alone(given, edition)
    }),
    ("23 for edition 0 before 21", |given| {
        is_before_short(given, 0)
    }),
    ("23 for edition 1 before 21", |given| {
        is_before_short(given, 1)
    }),
    ("23 for the greatest edition before 21", |given| {
        is_before_short(given, u32::MAX)
    }),
    ("23 for edition 0 with eight words for a worker", |given| {
        is_before_short(given, 0) && given.words.len() == with_eight_each(given)
    }),
    ("23 for edition 1 with nine words for a worker", |given| {
        is_before_short(given, 1) && given.words.len() == with_nine_each(given)
    }),
    ("23 for edition 0 in 12 words", |given| {
        is_before_short(given, 0) && given.words.len() == layout::HEADER_WORDS
    }),
    ("21 for edition 2 in 12 words", |given| {
        is_short(given) && given.words.len() == layout::HEADER_WORDS
    }),
];

fn with_eight_each(given: &Given) -> usize {
    given.settings.needed_words_in(Edition::Zero)
}

fn with_nine_each(given: &Given) -> usize {
    given.settings.needed_words_in(Edition::One)
}

fn is_short(given: &Given) -> bool {
    given.number == TOO_SHORT
}

/// Neither 21 nor a 23 of fit, nor make's 22.
fn passes(given: &Given) -> bool {
    given.settings.within_limits() && ![TOO_SHORT, UNFIT].contains(&given.number)
}

/// With the current edition they would be fit.
fn is_alone(given: &Given, edition: u32) -> bool {
    in_current_edition(given, edition) == Some(NO_WORKER)
}

/// With the current edition they would be too few.
fn is_before_short(given: &Given, edition: u32) -> bool {
    in_current_edition(given, edition) == Some(TOO_SHORT)
}

/// Of words of this edition that were refused with 23: what comes of them with the
/// current one in its place.
fn in_current_edition(given: &Given, edition: u32) -> Option<u32> {
    if given.number != UNFIT || given.words[layout::EDITION] != edition {
        return None;
    }
    let mut current = given.words.to_vec();
    current[layout::EDITION] = CURRENT_EDITION;
    Some(fitness(&current))
}
