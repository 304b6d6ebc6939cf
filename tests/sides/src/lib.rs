//! A call of the pool or of its dispatcher, and the implementations that can be
//! asked to make it: one table for the cross-check and the benchmark. And a move
//! between editions, which `fast` does not have.

use second::{in_edition, Answer, Edition, Returned, Settings, Size};

#[derive(Clone, Copy, Debug, PartialEq, Eq)]
pub enum Call {
    Make(Settings),
    BeginPut { worker: u32, value: u32 },
    BeginTake { worker: u32 },
    Step { worker: u32 },
    SetSize(Size),
}

/// From the worker on, at most so many steps.
#[derive(Clone, Copy, Debug, PartialEq, Eq)]
pub struct Dispatch {
    pub worker: u32,
    pub steps: u32,
}

pub struct Implementation {
    pub name: &'static str,
    make: fn(&mut [u32], Settings) -> Answer,
    begin_put: fn(&mut [u32], u32, u32) -> Answer,
    begin_take: fn(&mut [u32], u32) -> Answer,
    step: fn(&mut [u32], u32) -> Answer,
    set_size: fn(&mut [u32], Size) -> Answer,
    dispatch: fn(&mut [u32], u32, u32) -> Returned,
}

impl Implementation {
    pub fn call(&self, words: &mut [u32], call: Call) -> Answer {
        match call {
            Call::Make(settings) => (self.make)(words, settings),
            Call::BeginPut { worker, value } => (self.begin_put)(words, worker, value),
            Call::BeginTake { worker } => (self.begin_take)(words, worker),
            Call::Step { worker } => (self.step)(words, worker),
            Call::SetSize(size) => (self.set_size)(words, size),
        }
    }

    pub fn dispatch(&self, words: &mut [u32], Dispatch { worker, steps }: Dispatch) -> Returned {
        (self.dispatch)(words, worker, steps)
    }
}

/// The one that says what is right.
pub const SECOND: Implementation = Implementation {
    name: "second",
    make: second::make,
    begin_put: second::begin_put,
    begin_take: second::begin_take,
    step: second::step,
    set_size: second::set_size,
    dispatch: |words, worker, steps| second::dispatch(words, worker, steps).returned(),
};

/// The same in an edition that no other one has.
macro_rules! second_in {
    ($edition:expr, $name:literal) => {
        Implementation {
            name: $name,
            make: |words, settings| in_edition::make($edition, words, settings),
            begin_put: |words, worker, value| in_edition::begin_put($edition, words, worker, value),
            begin_take: |words, worker| in_edition::begin_take($edition, words, worker),
            step: |words, worker| in_edition::step($edition, words, worker),
            set_size: |_, _| panic!("it has no such call"),
            dispatch: |words, worker, steps| {
                in_edition::dispatch($edition, words, worker, steps).returned()
            },
        }
    };
}

pub const SECOND_IN_EDITION_0: Implementation = second_in!(Edition::Zero, "second in edition 0");
pub const SECOND_IN_EDITION_1: Implementation = second_in!(Edition::One, "second in edition 1");

/// The second implementation of this edition.
pub fn second_in(edition: Edition) -> &'static Implementation {
    match edition {
        Edition::Zero => &SECOND_IN_EDITION_0,
        Edition::One => &SECOND_IN_EDITION_1,
        Edition::Two => &SECOND,
    }
}

/// The library under test.
pub const COMPILED: Implementation = Implementation {
    name: "compiled",
    make: compiled::make,
    begin_put: compiled::begin_put,
    begin_take: compiled::begin_take,
    step: compiled::step,
    set_size: |words, size| Answer::of(compiled::set_size(words, size)),
    dispatch: compiled::dispatch,
};

/// The one that the benchmark measures the compiled library against.
pub const FAST: Implementation = Implementation {
    name: "fast",
    make: fast::make,
    begin_put: fast::begin_put,
    begin_take: fast::begin_take,
    step: fast::step,
    set_size: fast::set_size,
    dispatch: |words, worker, steps| fast::dispatch(words, worker, steps).returned(),
};

#[derive(Clone, Copy, Debug, PartialEq, Eq, PartialOrd, Ord)]
pub enum Move {
    From0To1,
    From1To0,
    From1To2,
    From2To1,
}

pub const MOVES: [Move; 4] = [
    Move::From0To1,
    Move::From1To0,
    Move::From1To2,
    Move::From2To1,
];

impl Move {
    /// The source's and the target's.
    pub fn editions(self) -> [Edition; 2] {
        match self {
            Move::From0To1 => [Edition::Zero, Edition::One],
            Move::From1To0 => [Edition::One, Edition::Zero],
            Move::From1To2 => [Edition::One, Edition::Two],
            Move::From2To1 => [Edition::Two, Edition::One],
        }
    }

    /// Those from this edition.
    pub fn from(edition: Edition) -> Vec<Move> {
        let mut moves = MOVES.to_vec();
        moves.retain(|which| which.editions()[0] == edition);
        moves
    }
}

pub struct Mover {
    pub name: &'static str,
    move_0_to_1: fn(&[u32], &mut [u32]) -> u32,
    move_1_to_0: fn(&[u32], &mut [u32]) -> u32,
    move_1_to_2: fn(&[u32], &mut [u32]) -> u32,
    move_2_to_1: fn(&[u32], &mut [u32]) -> u32,
}

impl Mover {
    /// Moves the pool, and gives the answer's number.
    pub fn answer(&self, which: Move, from: &[u32], to: &mut [u32]) -> u32 {
        match which {
            Move::From0To1 => (self.move_0_to_1)(from, to),
            Move::From1To0 => (self.move_1_to_0)(from, to),
            Move::From1To2 => (self.move_1_to_2)(from, to),
            Move::From2To1 => (self.move_2_to_1)(from, to),
        }
    }
}

pub const SECOND_MOVER: Mover = Mover {
    name: SECOND.name,
    move_0_to_1: second::move_0_to_1,
    move_1_to_0: second::move_1_to_0,
    move_1_to_2: second::move_1_to_2,
    move_2_to_1: second::move_2_to_1,
};

pub const COMPILED_MOVER: Mover = Mover {
    name: COMPILED.name,
    move_0_to_1: compiled::move_0_to_1,
    move_1_to_0: compiled::move_1_to_0,
    move_1_to_2: compiled::move_1_to_2,
    move_2_to_1: compiled::move_2_to_1,
};
