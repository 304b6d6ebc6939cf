//! The pool as fast as plain safe Rust makes it without keeping anything
//! between calls: the same checks and the same answers as `second`, which the
//! cross-check compares. What it saves: words are read in place, each kind and
//! phase has its own code, the checks of subs and workers and the count of a
//! distance run over contiguous words without branches. Each call is compiled for
//! an edition, by how many words a worker has.

mod admit;
mod calls;
mod dispatch;
mod distance;
mod edition;
mod queue;
mod sizes;
mod stack;
mod worker;

pub use calls::set_size;
use second::layout::{HEADER_WORDS, WORKER_WORDS};

type Header = [u32; HEADER_WORDS];

/// The calls of an edition, by how many words a worker has in it.
macro_rules! calls_with {
    ($worker_words:expr) => {
        pub fn make(words: &mut [u32], settings: second::Settings) -> second::Answer {
            crate::calls::make::<{ $worker_words }>(words, settings)
        }

        pub fn begin_put(words: &mut [u32], number: u32, value: u32) -> second::Answer {
            crate::calls::begin_put::<{ $worker_words }>(words, number, value)
        }

        pub fn begin_take(words: &mut [u32], number: u32) -> second::Answer {
            crate::calls::begin_take::<{ $worker_words }>(words, number)
        }

        pub fn step(words: &mut [u32], number: u32) -> second::Answer {
            crate::calls::step::<{ $worker_words }>(words, number)
        }

        pub fn dispatch(words: &mut [u32], named: u32, count: u32) -> second::Dispatched {
            crate::dispatch::dispatch::<{ $worker_words }>(words, named, count)
        }
    };
}

calls_with!(WORKER_WORDS);

/// In edition 2, whichever is current.
pub mod edition_2 {
    calls_with!(second::Edition::Two.worker_words());
}
