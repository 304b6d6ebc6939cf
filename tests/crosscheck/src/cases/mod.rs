//! The sorts of cases.

pub mod collisions;
pub mod dispatch;
mod events;
mod failed_commits;
pub mod files;
pub mod fit_faults;
mod from_make;
pub mod images;
pub mod makes;
pub mod moves;
mod play;
pub mod runs;
pub mod scripts;
pub mod segments;
pub mod sizes;
pub mod solo;
pub mod spacers;
pub mod stretch;
pub mod strides;
