//! The windowed pool once more, written from the papers alone.
//!
//! The calls are total: any number of words, any words, any arguments. A pool
//! is a queue (the paper's line) or a stack (its pile). Nothing here is made
//! fast; each rule stands in one place and reads like its paragraph.

mod answer;
mod bounds;
mod calls;
mod current;
mod dispatch;
mod listing;
mod moves;
mod one_at_a_time;
mod pool;
mod solo;
mod spacer;
mod stages;
mod stretch;

pub use answer::{Answer, STEP_LIMIT};
pub use answer::{BUSY, IDLE, NO_WORKER, OFF_LIMITS, SPENT, TOO_SHORT, UNFIT};
pub use answer::{EMPTY, FULL, MOVING, PUT, TAKEN};
pub use answer::{MAY_NOT_MOVE, NO_SUCH_SIZE, WRONG_EDITION};
pub use bounds::{closer_distance_bound, distance_bound, framework_figure};
pub use bounds::{full_bound, thesis_figure, worst_distance};
pub use calls::set_size;
pub use current::{begin_put, begin_take, dispatch, dispatch_watched, make, step};
pub use current::{list, list_watched, summarize};
pub use dispatch::{Dispatched, Returned, NONE_BUSY, RAN_OUT};
pub use listing::{Fault, ListedTake, Summary};
pub use listing::{ABOVE_BOUND, CUT, OUT_OF_PLACE};
pub use moves::{move_0_to_1, move_1_to_0, move_1_to_2, move_2_to_1};
pub use one_at_a_time::{one_at_a_time, AtLast, Event, Fed, Placed, Unchanging};
pub use pool::edition::{Edition, CURRENT_EDITION};
pub use pool::segments::{segments, segments_of_subs};
pub use pool::settings::{Settings, QUEUE, STACK};
pub use pool::size::Size;
pub use pool::{layout, phase};
pub use solo::{solo_steps, solo_steps_bound};
pub use spacer::SPACER;
pub use stretch::{longest_stretch, stretch_bound};

/// The same calls on a pool of the edition that the first argument names.
pub mod in_edition {
    pub use crate::calls::{begin_put, begin_take, make, step};
    pub use crate::dispatch::{dispatch, dispatch_watched};
    pub use crate::listing::{list, summarize};
}
