//! Paper 01, Returned by the calls: a number and five fields.

/// A field is zero unless the number's rule names it.
#[derive(Clone, Copy, Debug, Default, PartialEq, Eq)]
pub struct Answer {
    pub number: u32,
    pub value: u32,
    pub sub: u32,
    pub row: u32,
    pub stamp: u32,
    pub distance: u32,
}

/// Moving, made or begun.
pub const MOVING: u32 = 0;
pub const PUT: u32 = 1;
pub const TAKEN: u32 = 2;
pub const EMPTY: u32 = 3;
pub const FULL: u32 = 4;
/// Answers 1 to 4 finish an operation.
pub const LAST_FINAL: u32 = FULL;

/// Fewer words than needed, or fewer than 12.
pub const TOO_SHORT: u32 = 21;
/// Make: a setting off limits.
pub const OFF_LIMITS: u32 = 22;
/// Not fit, or a commit that matches with no free cell or no item.
pub const UNFIT: u32 = 23;
/// Worker number n or more.
pub const NO_WORKER: u32 = 24;
/// Begin on a busy worker.
pub const BUSY: u32 = 25;
/// Step on an idle worker.
pub const IDLE: u32 = 26;
/// Begin or step: the step count has reached its limit.
pub const SPENT: u32 = 27;
/// K6: a move from another edition.
pub const WRONG_EDITION: u32 = 31;
/// K8: a next size off limits, or one for a stack.
pub const NO_SUCH_SIZE: u32 = 32;
/// K8: a move that the pool is excepted from.
pub const MAY_NOT_MOVE: u32 = 33;

/// A begin or step with this step count or more is refused with 27.
pub const STEP_LIMIT: u32 = 4_000_000_000;

impl Answer {
    /// With its fields: value, sub, row, stamp and distance.
    #[inline]
    pub fn with(number: u32, [value, sub, row, stamp, distance]: [u32; 5]) -> Answer {
        Answer {
            number,
            value,
            sub,
            row,
            stamp,
            distance,
        }
    }

    /// Its fields, in the same order.
    pub fn fields(&self) -> [u32; 5] {
        [self.value, self.sub, self.row, self.stamp, self.distance]
    }

    pub fn of(number: u32) -> Answer {
        Answer {
            number,
            ..Answer::default()
        }
    }

    /// It finishes the worker's operation.
    pub fn is_final(&self) -> bool {
        (PUT..=LAST_FINAL).contains(&self.number)
    }

    /// It left the lent words unchanged.
    pub fn is_refusal(&self) -> bool {
        self.number > LAST_FINAL
    }
}
