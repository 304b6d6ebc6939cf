//! A move of words that need not be a pool, one of their words damaged, cut, or random,
//! of either edition.

use crate::failure::Failure;
use crate::make_up::settings::{whole_windows, within, Size};
use crate::make_up::{editions, image, junk};
use crate::moved::{moved, Trip};
use crate::rng::Rng;
use crate::side_by_side::Checks;
use second::{layout, Settings};
use sides::Move;

pub fn run(rng: &mut Rng, which: Move, checks: &mut Checks) -> Result<(), Failure> {
    let [old, new] = which.editions();
    let edition = rng.pick(&[old, old, old, new]);
    let from = image::any_of_edition(rng, edition);
    let settings = settings(rng, which, &from);
    let trip = Trip {
        which,
        settings,
        from_make: false,
    };
    let len = rng.pick(&editions::lengths(&settings));
    let to = junk::words(rng, len);
    moved(trip, &from, &to, checks)?;
    Ok(())
}

/// Those in the words, if there are any within limits.
fn settings(rng: &mut Rng, which: Move, words: &[u32]) -> Settings {
    let has_header = words.len() >= layout::HEADER_WORDS;
    let in_words = has_header.then(|| Settings::of_words(words));
    let [old, _] = which.editions();
    let fit = in_words.filter(|settings| settings.within_limits_in(old));
    fit.unwrap_or_else(|| whole_windows(within(rng, Size::Small)))
}
