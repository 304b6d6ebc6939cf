//! The two sides, each called as its own callers call it: the compiled library
//! from C, with one lent area for the fields of all answers; `fast` from Rust,
//! which returns its answer. Neither answer is copied or converted.

use compiled::{begin_put_into, begin_take_into, make_into, step_into, Fields};
use sides::Call;
use std::hint::black_box;

pub trait Side {
    const NAME: &'static str;
    fn call(&mut self, words: &mut [u32], call: Call);
}

#[derive(Default)]
pub struct Compiled {
    fields: Fields,
}

impl Side for Compiled {
    const NAME: &'static str = "compiled";

    #[inline]
    fn call(&mut self, words: &mut [u32], call: Call) {
        let fields = &mut self.fields;
        let number = match call {
            Call::Make(settings) => make_into(words, settings, fields),
            Call::BeginPut { worker, value } => begin_put_into(words, worker, value, fields),
            Call::BeginTake { worker } => begin_take_into(words, worker, fields),
            Call::Step { worker } => step_into(words, worker, fields),
            Call::SetSize(size) => compiled::set_size(words, size),
        };
        black_box(number);
        black_box(&self.fields);
    }
}

#[derive(Default)]
pub struct Fast;

impl Side for Fast {
    const NAME: &'static str = "fast";

    #[inline]
    fn call(&mut self, words: &mut [u32], call: Call) {
        let answer = match call {
            Call::Make(settings) => fast::make(words, settings),
            Call::BeginPut { worker, value } => fast::begin_put(words, worker, value),
            Call::BeginTake { worker } => fast::begin_take(words, worker),
            Call::Step { worker } => fast::step(words, worker),
            Call::SetSize(size) => fast::set_size(words, size),
        };
        black_box(&answer);
    }
}
