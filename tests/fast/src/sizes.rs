//! The words after the cells (K8): a queue's next size and the sizes of its live windows.

use crate::Header;
use second::layout::{LIVE, MOST_LIVE, NEXT_DEPTH, NEXT_WIDTH, PUT_WINDOW, SIZES, SIZE_SET};
use second::layout::{SIZE_DEPTH, SIZE_WIDTH, SIZE_WORDS, TAKE_WINDOW};
use second::{Edition, Settings};

pub const SIZE_WORDS_IN_ALL: usize = Edition::Two.size_words();

pub type Sizes = [u32; SIZE_WORDS_IN_ALL];

/// Of a pool that has them.
pub fn of(words: &mut [u32]) -> &mut Sizes {
    words.try_into().expect("an edition 2 pool has them all")
}

/// A width of 1 to w and a depth of 1 to the most.
fn within(width: u32, depth: u32, pools: u32, most: u32) -> bool {
    (width.wrapping_sub(1) < pools) & (depth.wrapping_sub(1) < most)
}

fn most_depth(settings: &Settings) -> u32 {
    (settings.rows / 2).min(64)
}

pub fn is_within(settings: &Settings, width: u32, depth: u32) -> bool {
    within(width, depth, settings.width, most_depth(settings))
}

/// The live pairs, which are few as a rule, one by one; those beyond all at once.
#[inline]
pub fn fit(settings: &Settings, header: &Header, words: &[u32]) -> bool {
    let Ok(words) = <&Sizes>::try_from(words) else {
        return false;
    };
    let live = words[LIVE];
    if live.wrapping_sub(1) >= MOST_LIVE {
        return false;
    }
    let most = most_depth(settings);
    let (pairs, _) = words[SIZES..].as_chunks::<SIZE_WORDS>();
    let mut fit = words[SIZE_SET] <= 1;
    fit &= within(words[NEXT_WIDTH], words[NEXT_DEPTH], settings.width, most);
    let mut deep = 0_u32;
    for [width, depth] in &pairs[..live as usize] {
        fit &= within(*width, *depth, settings.width, most);
        deep = deep.wrapping_add(*depth);
    }
    fit &= beyond(words, live) == 0;
    let [put, take] = [header[PUT_WINDOW], header[TAKE_WINDOW]];
    let first = pairs[0][SIZE_DEPTH];
    // They are at most 64 each, or it is not fit anyway.
    fit & (first <= take) & (take <= put) & (put.wrapping_sub(take) == deep.wrapping_sub(first))
}

/// Any bit of the pairs beyond the live ones. All pairs are looked at, the live ones for
/// nothing, so that the loop has no end to find.
fn beyond(words: &Sizes, live: u32) -> u32 {
    let first = SIZE_WORDS as u32 * live;
    let pairs = (0..).zip(&words[SIZES..]);
    pairs.fold(0, |all, (k, word)| all | if k >= first { *word } else { 0 })
}

pub fn are_zero(words: &[u32]) -> bool {
    words.iter().fold(0, |all, word| all | word) == 0
}

/// What make writes: the pool's size is the next one and that of the one window.
pub fn make(words: &mut [u32], width: u32, depth: u32) {
    words[NEXT_WIDTH] = width;
    words[NEXT_DEPTH] = depth;
    words[LIVE] = 1;
    words[SIZES + SIZE_WIDTH] = width;
    words[SIZES + SIZE_DEPTH] = depth;
}

/// Where the pair of live window k stands.
pub fn pair(k: u32) -> usize {
    SIZES + SIZE_WORDS * k as usize
}

/// The next size is that of a window more.
pub fn append(words: &mut Sizes) {
    let live = words[LIVE];
    let at = pair(live);
    words[at + SIZE_WIDTH] = words[NEXT_WIDTH];
    words[at + SIZE_DEPTH] = words[NEXT_DEPTH];
    words[LIVE] = live + 1;
}

/// The first pair goes.
pub fn drop_first(words: &mut Sizes) {
    let live = words[LIVE];
    words.copy_within(pair(1)..pair(live), pair(0));
    words[pair(live - 1)..pair(live)].fill(0);
    words[LIVE] = live - 1;
}
