//! Run files, whole and damaged (paper 01, The run file and its listing).

use super::schedule::{Numbers, Schedule};
use super::settings::{any, of_script, of_stride, of_width, within, Size};
use super::values::Values;
use super::{lost_commit, own_bound, worst_distance};
use crate::rng::Rng;
use second::phase::Side;
use second::{Answer, Settings, Size as OfWindow, QUEUE, STACK};
use sides::{Call, SECOND};
use std::ops::Range;

/// Mostly a run under a schedule; some have no call, some play a script.
pub fn whole(rng: &mut Rng) -> Vec<u8> {
    match rng.below(20) {
        0..=1 => encode(&of_run_file(rng), &[]),
        2 => scripted_file(rng),
        _ => scheduled_file(rng),
    }
}

/// A run whose distances may come up to the worst one.
fn scripted_file(rng: &mut Rng) -> Vec<u8> {
    let values = Values::new(rng);
    of_share(rng, STACK, values).0
}

/// A script to the worst distance with these values: the file, and the words and
/// the answer that its last call leaves.
pub fn of_share(rng: &mut Rng, kind: u32, values: Values) -> (Vec<u8>, Vec<u32>, Answer) {
    let settings = of_script(rng, kind);
    let mut script = worst_distance::script(settings);
    of_run(settings, |words| script.next(rng, words, values))
}

/// A script to the bound of a window of this size (K8), which is set first: the file, and
/// the words and the answer that its last call leaves. With no spacers the distance of its
/// last take is at that bound.
pub fn to_own_bound(
    rng: &mut Rng,
    settings: Settings,
    size: OfWindow,
) -> (Vec<u8>, Vec<u32>, Answer) {
    let mut script = own_bound::script(settings, size);
    let mut first = Some(Call::SetSize(size));
    let values = Values { share: 0 };
    of_run(settings, |words| {
        first.take().or_else(|| script.next(rng, words, values))
    })
}

fn scheduled_file(rng: &mut Rng) -> Vec<u8> {
    let (size, calls) = match rng.below(20) {
        0 => (Size::Large, rng.between(1_000, 20_000)),
        1..=6 => (Size::Medium, rng.between(50, 2_000)),
        7..=12 => (Size::Small, rng.between(30, 400)),
        _ => (Size::Small, rng.between(1, 27)),
    };
    scheduled(rng, size, calls)
}

fn scheduled(rng: &mut Rng, size: Size, calls: u32) -> Vec<u8> {
    let settings = within(rng, size);
    let values = Values::new(rng);
    let mut schedule = Schedule::new(rng, settings, Numbers::OfRunFile, values);
    let mut left = 0..calls;
    let next = |words: &[u32]| left.next().map(|_| schedule.next(rng, words));
    of_run(settings, next).0
}

/// A run of 50 to 150 bytes.
pub fn short(rng: &mut Rng) -> Vec<u8> {
    let calls = rng.between(10, 34);
    scheduled(rng, Size::Small, calls)
}

/// A run of more than 131,072 bytes, twice what a buffer or a pipe holds; mostly so
/// is its listing.
pub fn long(rng: &mut Rng) -> Vec<u8> {
    let calls = rng.between(35_000, 40_000);
    scheduled(rng, Size::Small, calls)
}

/// Cut at a byte of this range.
pub fn cut(rng: &mut Rng, file: &[u8], range: Range<usize>) -> Vec<u8> {
    file[..at(rng, range)].to_vec()
}

/// The word of a byte of this range has a kind that there is not.
pub fn out_of_place(rng: &mut Rng, file: &[u8], range: Range<usize>) -> Vec<u8> {
    let mut damaged = file.to_vec();
    damaged[at(rng, range) | 3] |= 0xf0;
    damaged
}

fn at(rng: &mut Rng, range: Range<usize>) -> usize {
    range.start + rng.below(range.len() as u32) as usize
}

/// A run of a pool of this width in which a commit fails, with values of the first
/// word's bits 20-27: all of the stride's four, and all of the spare four above
/// them. The sixteen widths come to all of the eight.
pub fn of_every_stride(rng: &mut Rng, width: u32) -> Vec<(u32, Vec<u8>)> {
    let kind = rng.pick(&[QUEUE, STACK]);
    let settings = of_stride(rng, kind, width, 0);
    let side = rng.pick(&[Side::Put, Side::Take]);
    let mut script = lost_commit::script(rng, settings, side);
    let values = Values::new(rng);
    let (file, ..) = of_run(settings, |words| script.next(rng, words, values));
    let spare_bits = (1..16).map(|spare| (spare << 4) | (width + spare) % 16);
    let with = |bits: u32| {
        let mut file = file.clone();
        file[2] |= (bits << 4) as u8;
        file[3] |= (bits >> 4) as u8;
        (bits, file)
    };
    (0..16).chain(spare_bits).map(with).collect()
}

/// A file about kind 8 words (K8), and what it is about.
pub type Sized = (&'static str, Vec<u8>);

/// Where the spare bits of a kind 8 word are.
const SPARE_BITS: Range<u32> = 12..28;

/// A run of a pool of this kind and width with each width that a kind 8 word can name and
/// each depth, off limits or within; and files that such a word makes faulty: with each
/// spare bit, as the first word and as the second.
pub fn of_sizes(rng: &mut Rng, kind: u32, width: u32) -> Vec<Sized> {
    let sort = rng.pick(&[Size::Small, Size::Large]);
    let settings = of_width(rng, kind, width, sort);
    let depth = rng.pick(&[1, settings.depth]);
    let widths = (0..32).map(|width| OfWindow { width, depth });
    let depths = (0..128).map(|depth| OfWindow { width: 1, depth });
    let every: Vec<Call> = widths.chain(depths).map(Call::SetSize).collect();
    let whole = encode(&settings, &every);
    let mut files = vec![(WHOLE[kind as usize], whole.clone())];
    let words = whole.len() / 4;
    let word = |file: &mut Vec<u8>, at: usize, change: &dyn Fn(u32) -> u32| {
        let bytes = &mut file[4 * at..4 * at + 4];
        let word = u32::from_le_bytes([bytes[0], bytes[1], bytes[2], bytes[3]]);
        bytes.copy_from_slice(&change(word).to_le_bytes());
    };
    for bit in SPARE_BITS {
        let mut file = whole.clone();
        let at = 2 + rng.below(words as u32 - 3) as usize;
        word(&mut file, at, &|word| word | 1 << bit);
        files.push((SPARE, file));
    }
    for (at, name) in [(0, FIRST), (1, SECOND_WORD)] {
        let mut file = whole.clone();
        word(&mut file, at, &|_| 8 << 28 | 1 << 5 | 1);
        files.push((name, file));
    }
    files
}

/// What files about kind 8 words are about: of a queue, and of a stack.
pub const WHOLE: [&str; 2] = ["all sizes of a queue", "all sizes of a stack"];
pub const SPARE: &str = "a spare bit of a size";
pub const FIRST: &str = "a size as the first word";
pub const SECOND_WORD: &str = "a size as the second word";

/// The calls that follow a make, each made up from the words before it; the words
/// and the answer that the last one leaves.
fn of_run(
    settings: Settings,
    mut next: impl FnMut(&[u32]) -> Option<Call>,
) -> (Vec<u8>, Vec<u32>, Answer) {
    let mut words = vec![0; settings.needed_words()];
    let mut last = SECOND.call(&mut words, Call::Make(settings));
    let mut run = Vec::new();
    while let Some(call) = next(&words) {
        last = SECOND.call(&mut words, call);
        run.push(call);
    }
    (encode(&settings, &run), words, last)
}

/// Settings that a header can hold, within limits or off.
fn of_run_file(rng: &mut Rng) -> Settings {
    let settings = any(rng);
    Settings {
        kind: settings.kind % 2,
        width: settings.width % 32,
        depth: settings.depth % 128,
        shift: settings.shift % 128,
        rows: settings.rows % 2048,
        workers: settings.workers % 64,
        stride: settings.stride % 16,
    }
}

/// The bytes of a run of calls after a make with these settings.
fn encode(settings: &Settings, calls: &[Call]) -> Vec<u8> {
    let first = 1 << 28
        | settings.stride << 20
        | settings.kind << 19
        | settings.shift << 12
        | settings.depth << 5
        | settings.width;
    let second = 2 << 28 | settings.workers << 11 | settings.rows;
    let header = [first, second].into_iter();
    let words = header.chain(calls.iter().map(word)).chain([6 << 28]);
    words.flat_map(u32::to_le_bytes).collect()
}

fn word(call: &Call) -> u32 {
    match *call {
        Call::BeginPut { worker, value } => 3 << 28 | worker << 22 | value,
        Call::BeginTake { worker } => 4 << 28 | worker << 22,
        Call::Step { worker } => 5 << 28 | worker << 22,
        Call::SetSize(OfWindow { width, depth }) => 8 << 28 | depth << 5 | width,
        Call::Make(_) => unreachable!("a run has one make, its header"),
    }
}

pub fn one_bit_damaged(rng: &mut Rng, file: &[u8]) -> Vec<u8> {
    let mut damaged = file.to_vec();
    let at = rng.below(file.len() as u32) as usize;
    damaged[at] ^= 1 << rng.below(8);
    damaged
}

pub fn with_bytes_after(rng: &mut Rng, file: &[u8]) -> Vec<u8> {
    let mut longer = file.to_vec();
    for _ in 0..rng.between(1, 9) {
        longer.push(rng.below(256) as u8);
    }
    longer
}

/// Words that are no run, some of them with a fitting header.
pub fn random(rng: &mut Rng, file: &[u8]) -> Vec<u8> {
    let kept = rng.pick(&[0, 4, 8]);
    let mut bytes = file[..kept].to_vec();
    for _ in 0..rng.below(20) {
        let kind = rng.pick(&[0, 1, 2, 3, 4, 5, 5, 5, 6, 7, 8, 8, 15]);
        let worker = match kind {
            8 => 0,
            _ => rng.below(4),
        };
        let bits = [0, 0xfff, 0x3f_ffff];
        let word = kind << 28 | worker << 22 | rng.u32() & rng.pick(&bits);
        bytes.extend(word.to_le_bytes());
    }
    bytes
}
