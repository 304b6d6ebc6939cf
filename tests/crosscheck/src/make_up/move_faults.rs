//! What can be wrong with a move (K6, K8), in the order of its checks.

use super::editions::{self, ABOUT_HEADER, EDITIONS};
use super::{image, junk, settings};
use crate::moved::Trip;
use crate::rng::Rng;
use second::phase;
use second::{layout, MAY_NOT_MOVE, QUEUE, TOO_SHORT, UNFIT, WRONG_EDITION};
use sides::Move;

#[derive(Clone, Copy, Debug, PartialEq, Eq, PartialOrd, Ord)]
pub enum Fault {
    /// Fewer than 12 words.
    Head,
    Setting,
    Stride,
    Edition,
    /// Fewer words than needed, subs and workers among them.
    Needed,
    Sub,
    Phase,
    Index,
    Scan,
    /// A queue that does not move between editions 1 and 2.
    Excepted,
    /// The target has fewer words than needed.
    Target,
}

const FAULTS: [Fault; 11] = [
    Fault::Head,
    Fault::Setting,
    Fault::Stride,
    Fault::Edition,
    Fault::Needed,
    Fault::Sub,
    Fault::Phase,
    Fault::Index,
    Fault::Scan,
    Fault::Excepted,
    Fault::Target,
];

/// Each alone, and each two at once, the one first that is checked first.
pub fn alone_and_in_pairs(which: Move, kind: u32) -> Vec<Vec<Fault>> {
    let mut faults = FAULTS.to_vec();
    faults.retain(|fault| *fault != Fault::Excepted || may_except(which, kind));
    let mut all = Vec::new();
    for (at, first) in faults.iter().enumerate() {
        all.push(vec![*first]);
        all.extend(faults[at + 1..].iter().map(|second| vec![*first, *second]));
    }
    all
}

fn may_except(which: Move, kind: u32) -> bool {
    kind == QUEUE && [Move::From1To2, Move::From2To1].contains(&which)
}

impl Fault {
    /// "It refuses an image of the wrong edition for the direction with 31; length and
    /// fitness keep their numbers."
    pub fn number(self) -> u32 {
        match self {
            Fault::Head | Fault::Needed | Fault::Target => TOO_SHORT,
            Fault::Edition => WRONG_EDITION,
            Fault::Excepted => MAY_NOT_MOVE,
            _ => UNFIT,
        }
    }

    /// In the source's words, which are fit, or to be cut later on.
    fn spoil_word(self, rng: &mut Rng, trip: Trip, from: &mut [u32]) {
        let settings = &trip.settings;
        let [old, _] = trip.which.editions();
        let worker = rng.below(settings.workers) as usize;
        let worker = settings.workers_at() + old.worker_words() * worker;
        let above = settings.width.saturating_add(rng.pick(&[0, 1, u32::MAX]));
        match self {
            Fault::Setting => {
                let mut off = settings::off_limits_in(rng, old, settings);
                // Another fault may be in it already.
                off.stride = from[layout::STRIDE];
                image::set_settings(&off, from);
            }
            Fault::Stride => from[layout::STRIDE] = above,
            Fault::Edition => {
                let any = [junk::word(rng), rng.u32()];
                let mut others = [&EDITIONS[..], &any].concat();
                others.retain(|edition| *edition != old.word());
                from[layout::EDITION] = rng.pick(&others);
            }
            Fault::Sub => spoil_sub(rng, trip, from),
            Fault::Phase => {
                let phases = (0..20).chain([u32::MAX]);
                let no_phase = phases.filter(|phase| !phase::is_of_kind(settings.kind, *phase));
                let no_phase: Vec<u32> = no_phase.collect();
                from[worker + layout::PHASE] = rng.pick(&no_phase);
            }
            Fault::Index => from[worker + layout::INDEX] = above,
            Fault::Scan => from[worker + layout::SCAN] = above,
            // One that no other fault undoes.
            Fault::Excepted if old.has_sizes() => {
                from[settings.sizes_at_in(old) + layout::SIZE_SET] = 1;
            }
            Fault::Excepted => {
                let take = from[layout::TAKE_WINDOW];
                from[layout::PUT_WINDOW] = take.wrapping_add(16 * settings.depth);
            }
            Fault::Head | Fault::Needed | Fault::Target => {}
        }
    }

    /// How many words the source and the target are cut to.
    fn cut(self, rng: &mut Rng, trip: Trip, [from, to]: [&mut Vec<u32>; 2]) {
        let [needed, wanted] = trip.needed();
        let cells_at = trip.settings.cells_at_in(trip.which.editions()[0]);
        let below = |rng: &mut Rng, end: usize| rng.below(end as u32) as usize;
        match self {
            Fault::Head => {
                let few = below(rng, layout::HEADER_WORDS);
                from.truncate(rng.pick(&[few, layout::HEADER_WORDS - 1]));
            }
            Fault::Needed => {
                let some = cells_at + below(rng, needed - cells_at);
                from.truncate(rng.pick(&[some, needed - 1]));
            }
            Fault::Target => {
                let some = below(rng, wanted);
                let mut few = [
                    &[0, some][..],
                    &ABOUT_HEADER,
                    &editions::lengths(&trip.settings),
                ]
                .concat();
                few.retain(|len| *len < wanted);
                to.truncate(rng.pick(&few));
            }
            _ => {}
        }
    }
}

/// Taken above put, or more than R put; more than R held.
fn spoil_sub(rng: &mut Rng, trip: Trip, from: &mut [u32]) {
    let settings = &trip.settings;
    let j = rng.below(settings.width) as usize;
    let from_take_window = from[layout::TAKE_WINDOW];
    let sub = &mut from[settings.subs_at() + layout::SUB_WORDS * j..][..layout::SUB_WORDS];
    let too_many = settings.rows + 1 + rng.below(2);
    // Not below the take window's bottom: near 2^32 there are no rows for too many.
    let some = from_take_window.saturating_add(rng.below(100)).max(1);
    let has_rows = some < u32::MAX - too_many;
    match (settings.kind, rng.chance(50) && has_rows) {
        (QUEUE, true) => sub.copy_from_slice(&[some + too_many, some]),
        (QUEUE, false) => sub.copy_from_slice(&[some - 1, some]),
        _ => sub[layout::ITEMS_HELD] = rng.pick(&[too_many, u32::MAX]),
    }
}

/// These words, fit for the move, with these faults.
pub fn spoiled(
    rng: &mut Rng,
    trip: Trip,
    [from, to]: [&[u32]; 2],
    faults: &[Fault],
) -> [Vec<u32>; 2] {
    let mut from = from.to_vec();
    let mut to = to.to_vec();
    for fault in faults {
        fault.spoil_word(rng, trip, &mut from);
    }
    for fault in faults {
        fault.cut(rng, trip, [&mut from, &mut to]);
    }
    [from, to]
}
