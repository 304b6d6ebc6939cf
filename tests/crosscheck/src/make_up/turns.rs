//! Whose turn it is.

use super::ambush::Ambush;
use super::workers::Workers;
use crate::rng::Rng;
use second::phase::{Side, Stage};

pub enum Turns {
    Fair,
    RoundRobin(u32),
    /// One worker goes on for a while.
    Bursty {
        worker: u32,
        left: u32,
    },
    /// One worker goes on for long, with puts alone or takes alone: it stays
    /// at its sub while the window lets it.
    Solo {
        worker: u32,
        put_percent: u32,
        left: u32,
    },
    /// Workers stay at a stage, some of them for long, while others go on.
    Parked {
        stage: Stage,
        side: Option<Side>,
        parked: Vec<bool>,
    },
    Ambush(Ambush),
}

/// The stages at which it matters most that others go on.
const STAGES: [Stage; 7] = [
    Stage::Commit,
    Stage::Shift,
    Stage::Commit,
    Stage::Shift,
    Stage::Read,
    Stage::Check,
    Stage::Confirm,
];

impl Turns {
    pub fn new(rng: &mut Rng, workers: &Workers) -> Turns {
        let stage = rng.pick(&STAGES);
        match rng.below(10) {
            0 => Turns::Fair,
            1 => Turns::RoundRobin(0),
            2 => Turns::Bursty { worker: 0, left: 0 },
            3..=4 => Turns::Solo {
                worker: 0,
                put_percent: 0,
                left: 0,
            },
            5..=6 => Turns::Parked {
                stage,
                side: rng.pick(&[None, Some(Side::Put), Some(Side::Take)]),
                parked: vec![false; workers.number() as usize],
            },
            _ => Turns::Ambush(Ambush::new(rng, workers, stage)),
        }
    }

    /// The next worker; some turns also say how many percent of begins are
    /// puts.
    pub fn next(&mut self, rng: &mut Rng, workers: &Workers) -> (u32, Option<u32>) {
        let any = rng.below(workers.number());
        let worker = match self {
            Turns::Fair => any,
            Turns::RoundRobin(last) => {
                *last = (*last + 1) % workers.number();
                *last
            }
            Turns::Bursty { worker, left } => {
                if *left == 0 {
                    *worker = any;
                    *left = rng.between(1, 20);
                }
                *left -= 1;
                *worker
            }
            Turns::Solo {
                worker,
                put_percent,
                left,
            } => {
                if *left == 0 {
                    *worker = any;
                    *put_percent = rng.pick(&[0, 100]);
                    *left = rng.between(1, 8 * workers.settings.width * workers.settings.depth);
                }
                *left -= 1;
                return (*worker, Some(*put_percent));
            }
            Turns::Parked {
                stage,
                side,
                parked,
            } => next_beside_parked(rng, workers, *stage, *side, parked),
            Turns::Ambush(ambush) => {
                let (worker, put_percent) = ambush.next(rng, workers);
                return (worker, Some(put_percent));
            }
        };
        (worker, None)
    }
}

/// A worker that comes to the stage is often parked there; now and then one or
/// all go on.
fn next_beside_parked(
    rng: &mut Rng,
    workers: &Workers,
    stage: Stage,
    side: Option<Side>,
    parked: &mut [bool],
) -> u32 {
    if rng.chance(1) {
        parked.fill(false);
    }
    for _ in 0..workers.number() {
        let worker = rng.below(workers.number());
        let is_parked = &mut parked[worker as usize];
        let there = workers
            .stage(worker)
            .is_some_and(|(at_side, at)| at == stage && side.is_none_or(|side| side == at_side));
        if !*is_parked && there && rng.chance(70) {
            *is_parked = true;
        } else if !*is_parked || rng.chance(2) {
            *is_parked = false;
            return worker;
        }
    }
    rng.below(workers.number())
}
