//! Moves by word 11 and by the number of words, of the source and of the target, which
//! holds old ones: about 12, and about the needed ones of either edition.

use crate::failure::Failure;
use crate::make_up::editions::{self, ABOUT_HEADER, EDITIONS};
use crate::make_up::{junk, movable};
use crate::moved::{moved, Trip};
use crate::rng::Rng;
use crate::side_by_side::Checks;
use second::Edition;

pub fn run(rng: &mut Rng, trip: Trip, checks: &mut Checks) -> Result<(), Failure> {
    let about_needed = editions::lengths(&trip.settings);
    let most = trip.settings.needed_words_in(Edition::Two);
    let more = most + rng.between(33, 99) as usize;
    let lengths = [&[0][..], &ABOUT_HEADER, &about_needed, &[more]].concat();
    for word_11 in EDITIONS.into_iter().chain([junk::word(rng), rng.u32()]) {
        for from_len in &lengths {
            let from = movable::image(rng, trip.which, &trip.settings);
            let from = editions::cut(rng, from, word_11, *from_len);
            for to_len in &lengths {
                let to = junk::words(rng, *to_len);
                moved(trip, &from, &to, checks)?;
            }
        }
    }
    Ok(())
}
