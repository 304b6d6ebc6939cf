//! How cases are made up from random numbers.

mod acts;
mod ambush;
pub mod dispatches;
pub mod editions;
pub mod fit_faults;
pub mod held_cells;
pub mod image;
pub mod junk;
pub mod live_windows;
pub mod longest_stretch;
pub mod lost_commit;
pub mod most_live;
pub mod most_steps;
pub mod movable;
pub mod move_faults;
pub mod own_bound;
pub mod pieces;
pub mod put_window_moves;
pub mod run_file;
pub mod schedule;
pub mod script;
pub mod settings;
pub mod sizes;
mod turns;
pub mod values;
pub mod workers;
pub mod worst_distance;
