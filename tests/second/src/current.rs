//! The calls on a pool of the current edition.

use crate::answer::Answer;
use crate::dispatch::Dispatched;
use crate::listing::ListedTake;
use crate::pool::edition::Edition;
use crate::pool::settings::Settings;
use crate::{calls, dispatch as dispatcher, listing};
use std::io::{Read, Result, Write};

const CURRENT: Edition = Edition::CURRENT;

pub fn make(words: &mut [u32], settings: Settings) -> Answer {
    calls::make(CURRENT, words, settings)
}

pub fn begin_put(words: &mut [u32], number: u32, value: u32) -> Answer {
    calls::begin_put(CURRENT, words, number, value)
}

pub fn begin_take(words: &mut [u32], number: u32) -> Answer {
    calls::begin_take(CURRENT, words, number)
}

pub fn step(words: &mut [u32], number: u32) -> Answer {
    calls::step(CURRENT, words, number)
}

pub fn dispatch(words: &mut [u32], named: u32, count: u32) -> Dispatched {
    dispatcher::dispatch(CURRENT, words, named, count)
}

pub fn dispatch_watched(
    words: &mut [u32],
    named: u32,
    count: u32,
    watch: impl FnMut(u32, Answer),
) -> Dispatched {
    dispatcher::dispatch_watched(CURRENT, words, named, count, watch)
}

pub fn list<R: Read, W: Write>(input: R, output: W) -> Result<()> {
    listing::list(CURRENT, input, output)
}

pub fn list_watched<R: Read, W: Write>(
    input: R,
    output: W,
    watch: impl FnMut(&ListedTake),
) -> Result<()> {
    listing::list_watched(CURRENT, input, output, watch)
}

pub fn summarize<R: Read, W: Write>(input: R, output: W) -> Result<()> {
    listing::summarize(CURRENT, input, output)
}
