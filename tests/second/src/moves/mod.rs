//! K6, saved pools at turnaround: "Move edition 0 to 1 and back, between two lent
//! word areas. Forward, the new words are zero; backward, they are dropped. A move
//! answers 0 and leaves the source as it was." K8: edition 1 to 2 and back.

mod excepted;
mod given;

use crate::answer::{MAY_NOT_MOVE, MOVING, TOO_SHORT};
use crate::pool::edition::Edition;
use crate::pool::fit::fit_to_move;
use crate::pool::{layout, Pool};
use excepted::may_move;
use given::{give_sizes, with_seen_size};

pub fn move_0_to_1(from: &[u32], to: &mut [u32]) -> u32 {
    moved(from, Edition::Zero, to, Edition::One)
}

pub fn move_1_to_0(from: &[u32], to: &mut [u32]) -> u32 {
    moved(from, Edition::One, to, Edition::Zero)
}

pub fn move_1_to_2(from: &[u32], to: &mut [u32]) -> u32 {
    moved(from, Edition::One, to, Edition::Two)
}

pub fn move_2_to_1(from: &[u32], to: &mut [u32]) -> u32 {
    moved(from, Edition::Two, to, Edition::One)
}

/// "The order of checks is the source's first 12 words, its settings and stride, its
/// edition, its needed words, the rest of its fitness, then the target's length." K8's
/// 33 comes "after the source's fitness".
fn moved(from: &[u32], old: Edition, to: &mut [u32], new: Edition) -> u32 {
    let mut copy = from.to_vec();
    let source = match fit_to_move(&mut copy, old) {
        Ok(pool) => pool,
        Err(refusal) => return refusal,
    };
    if !may_move(&source, new) {
        return MAY_NOT_MOVE;
    }
    if to.len() < source.settings.needed_words_in(new) {
        return TOO_SHORT;
    }
    let mut target = Pool {
        words: to,
        settings: source.settings,
        edition: new,
    };
    copy_pool(&source, &mut target);
    MOVING
}

/// All words that both editions have are kept, but for the edition. Those that the
/// source has not are 0, or a size.
fn copy_pool(source: &Pool, target: &mut Pool) {
    let before_workers = ..source.settings.workers_at();
    target.words[before_workers].copy_from_slice(&source.words[before_workers]);
    target.words[layout::EDITION] = target.edition.word();
    for number in 0..source.settings.workers {
        target.set_worker(number, with_seen_size(source, source.worker(number)));
    }
    let cells = target.cells();
    target.words[cells].copy_from_slice(&source.words[source.cells()]);
    give_sizes(target);
}
