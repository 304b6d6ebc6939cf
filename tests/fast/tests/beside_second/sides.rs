//! The two sides of a call in an edition: its number and six fields.

use second::{in_edition, Answer, Edition, Returned, Settings, Size};

#[derive(Clone, Copy, Debug)]
pub enum Call {
    Make(Settings),
    BeginPut { worker: u32, value: u32 },
    BeginTake { worker: u32 },
    Step { worker: u32 },
    Dispatch { worker: u32, steps: u32 },
    SetSize(Size),
}

impl Call {
    pub fn name(&self) -> &'static str {
        match self {
            Call::Make(_) => "make",
            Call::BeginPut { .. } | Call::BeginTake { .. } => "begin",
            Call::Step { .. } => "step",
            Call::Dispatch { .. } => "dispatch",
            Call::SetSize(_) => "size",
        }
    }
}

type Made = fn(&mut [u32], Call) -> Returned;

pub struct Side {
    pub edition: Edition,
    pub second: Made,
    pub fast: Made,
}

fn returned(answer: Answer) -> Returned {
    let [value, sub, row, stamp, distance] = answer.fields();
    (answer.number, [value, sub, row, stamp, distance, 0])
}

fn second_in(edition: Edition, words: &mut [u32], call: Call) -> Returned {
    match call {
        Call::Make(settings) => returned(in_edition::make(edition, words, settings)),
        Call::BeginPut { worker, value } => {
            returned(in_edition::begin_put(edition, words, worker, value))
        }
        Call::BeginTake { worker } => returned(in_edition::begin_take(edition, words, worker)),
        Call::Step { worker } => returned(in_edition::step(edition, words, worker)),
        Call::Dispatch { worker, steps } => {
            in_edition::dispatch(edition, words, worker, steps).returned()
        }
        Call::SetSize(size) => returned(second::set_size(words, size)),
    }
}

pub const TWO: Side = Side {
    edition: Edition::Two,
    second: |words, call| second_in(Edition::Two, words, call),
    fast: |words, call| match call {
        Call::Make(settings) => returned(fast::edition_2::make(words, settings)),
        Call::BeginPut { worker, value } => {
            returned(fast::edition_2::begin_put(words, worker, value))
        }
        Call::BeginTake { worker } => returned(fast::edition_2::begin_take(words, worker)),
        Call::Step { worker } => returned(fast::edition_2::step(words, worker)),
        Call::Dispatch { worker, steps } => {
            fast::edition_2::dispatch(words, worker, steps).returned()
        }
        Call::SetSize(size) => returned(fast::set_size(words, size)),
    },
};

pub const CURRENT: Side = Side {
    edition: Edition::CURRENT,
    second: |words, call| second_in(Edition::CURRENT, words, call),
    fast: |words, call| match call {
        Call::Make(settings) => returned(fast::make(words, settings)),
        Call::BeginPut { worker, value } => returned(fast::begin_put(words, worker, value)),
        Call::BeginTake { worker } => returned(fast::begin_take(words, worker)),
        Call::Step { worker } => returned(fast::step(words, worker)),
        Call::Dispatch { worker, steps } => fast::dispatch(words, worker, steps).returned(),
        Call::SetSize(size) => returned(fast::set_size(words, size)),
    },
};
