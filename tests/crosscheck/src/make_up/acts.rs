//! The acts of a script: in each one worker goes on, with puts alone or takes
//! alone, until something is so.

use super::values::Values;
use super::workers::Workers;
use crate::rng::Rng;
use second::phase::{Side, Stage};
use sides::Call;
use std::ops::Range;

/// What ends an act. "Full" is as full as the window lets a sub be.
#[derive(Clone, Copy)]
pub enum Until {
    AllFull,
    /// All but the last sub.
    OthersFull,
    /// This sub.
    Full(u32),
    LastHolds(u32),
    /// This sub's highest row.
    TopRowIs(u32, u32),
    /// The worker's next take is that of the last sub's item in this row.
    NextIsInLast {
        row: u32,
    },
    /// The worker stands before this stage.
    Before(Stage),
    /// It stands before this stage, in its pass after so many subs.
    At(Stage, u32),
    /// P or G.
    WindowIs(u32),
    /// T.
    TakeWindowIs(u32),
    /// No take finds an item before the window moves.
    NoneInReach,
    /// Nor in this sub.
    OutOfReach(u32),
    Idle,
}

#[derive(Clone, Copy)]
pub struct Act {
    worker: u32,
    side: Side,
    until: Until,
}

pub fn puts(worker: u32, until: Until) -> Act {
    Act {
        worker,
        side: Side::Put,
        until,
    }
}

pub fn takes(worker: u32, until: Until) -> Act {
    Act {
        worker,
        side: Side::Take,
        until,
    }
}

impl Act {
    pub fn is_over(&self, workers: &Workers) -> bool {
        let window = workers.put_window();
        let last = workers.settings.width - 1;
        let full = |subs: u32| (0..subs).all(|j| workers.top_row(j) == window);
        let none_in_reach = |mut subs: Range<u32>| subs.all(|j| workers.in_reach(j) == 0);
        let is_before = |stage| workers.stage(self.worker) == Some((self.side, stage));
        match self.until {
            Until::AllFull => full(last + 1),
            Until::OthersFull => full(last),
            Until::Full(sub) => workers.top_row(sub) == window,
            Until::LastHolds(items) => workers.top_row(last) == items,
            Until::TopRowIs(sub, row) => workers.top_row(sub) == row,
            Until::NextIsInLast { row } => {
                let on_its_way = workers.index(self.worker)..last;
                none_in_reach(on_its_way) && workers.top_row(last) == row
            }
            Until::NoneInReach => none_in_reach(0..last + 1),
            Until::OutOfReach(sub) => none_in_reach(sub..sub + 1),
            Until::Before(stage) => is_before(stage),
            Until::At(stage, subs) => is_before(stage) && workers.scan(self.worker) == subs,
            Until::WindowIs(wanted) => window == wanted,
            Until::TakeWindowIs(wanted) => workers.take_window() == wanted,
            Until::Idle => workers.is_idle(self.worker),
        }
    }

    pub fn next(&self, rng: &mut Rng, workers: &Workers, values: Values) -> Call {
        let worker = self.worker;
        if !workers.is_idle(worker) {
            return Call::Step { worker };
        }
        match self.side {
            // A run file may hold the script.
            Side::Put => Call::BeginPut {
                worker,
                value: values.of_run_file(rng),
            },
            Side::Take => Call::BeginTake { worker },
        }
    }
}
