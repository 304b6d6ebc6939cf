//! Paper 01, The pool's words: phases. Put has 1 to 6, take 9 to 14.

use super::settings::QUEUE;

pub const IDLE: u32 = 0;

/// What a worker's operation is.
#[derive(Clone, Copy, Debug, PartialEq, Eq)]
pub enum Side {
    Put,
    Take,
}

/// The stages of an operation, in the paper's order.
#[derive(Clone, Copy, Debug, PartialEq, Eq)]
pub enum Stage {
    Window,
    Read,
    Check,
    Commit,
    Shift,
    Confirm,
}

pub const STAGES: [Stage; 6] = [
    Stage::Window,
    Stage::Read,
    Stage::Check,
    Stage::Commit,
    Stage::Shift,
    Stage::Confirm,
];

impl Side {
    pub fn phase(self, stage: Stage) -> u32 {
        let first = match self {
            Side::Put => 1,
            Side::Take => 9,
        };
        first + stage as u32
    }
}

/// The operation and stage of a busy worker's phase; none for 0 and for
/// numbers that are no phase.
pub fn decode(phase: u32) -> Option<(Side, Stage)> {
    for side in [Side::Put, Side::Take] {
        for stage in STAGES {
            if side.phase(stage) == phase {
                return Some((side, stage));
            }
        }
    }
    None
}

/// K8: "past its window phase", busy and not in it.
pub fn is_past_window(phase: u32) -> bool {
    decode(phase).is_some_and(|(_, stage)| stage != Stage::Window)
}

/// "A phase of its kind": queues have no 3, 6 or 11.
pub fn is_of_kind(kind: u32, phase: u32) -> bool {
    let missing_in_queue = [3, 6, 11].contains(&phase);
    phase == IDLE || decode(phase).is_some() && !(kind == QUEUE && missing_in_queue)
}
