//! Every stride of a width, and strides above them: makes, images, and runs from
//! make in which a commit fails.

use super::from_make::FromMake;
use super::play::play;
use super::{images, makes};
use crate::failure::Failure;
use crate::make_up::settings::{of_stride, STRIDES};
use crate::make_up::{dispatches, image, junk, lost_commit};
use crate::rng::Rng;
use crate::side_by_side::{Checks, SideBySide};
use second::phase::Side;
use second::{layout, Settings, QUEUE, STACK};

pub fn run(rng: &mut Rng, width: u32, checks: &mut Checks) -> Result<(), Failure> {
    for kind in [QUEUE, STACK] {
        for stride in STRIDES.chain([junk::word(rng)]) {
            let settings = of_stride(rng, kind, width, stride);
            makes::with(rng, settings, checks)?;
            in_word_10(rng, &settings, checks)?;
            if settings.within_limits() {
                lost_commits(rng, settings, checks)?;
            }
        }
    }
    Ok(())
}

/// Words that are fit but for the stride, and then fewer than needed.
fn in_word_10(rng: &mut Rng, settings: &Settings, checks: &mut Checks) -> Result<(), Failure> {
    let words = image::of(rng, settings);
    let needed = settings.needed_words() as u32;
    let few = rng.between(layout::HEADER_WORDS as u32, needed - 1) as usize;
    for words in [&words, &words[..few]] {
        images::calls_on(rng, words, checks)?;
        let dispatch = dispatches::any(rng, words);
        SideBySide::new(words, checks).dispatch(dispatch, checks)?;
    }
    Ok(())
}

fn lost_commits(rng: &mut Rng, settings: Settings, checks: &mut Checks) -> Result<(), Failure> {
    for side in [Side::Put, Side::Take] {
        let mut run = FromMake::new("run with a lost commit", rng, settings, checks)?;
        let script = lost_commit::script(rng, settings, side);
        play(rng, &mut run, script, checks)?;
        run.one_at_a_time()?;
    }
    Ok(())
}
