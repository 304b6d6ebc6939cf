//! Paper 01, The run file and its listing. The lister and the summary are two
//! printings of one replay.

mod decode;
mod lister;
mod reader;
mod replay;
mod summary;

pub use lister::{list, list_watched, ListedTake};
pub use summary::{summarize, Summary};

/// Cut in a word or before its end word.
pub const CUT: u32 = 28;
/// A kind out of place, a nonzero spare bit, bytes after the end.
pub const OUT_OF_PLACE: u32 = 29;
/// A take's distance above demand 3's bound: the stop that no run file reaches.
pub const ABOVE_BOUND: u32 = 30;

/// A refusal of the file, 22, 28 or 29, and the position that is printed with it.
#[derive(Debug)]
pub struct Fault {
    pub position: u64,
    pub number: u32,
}

/// What ends a replay before the file's end.
enum Stop {
    At(Fault),
    /// The paper has no such case: the bytes could not be read or written.
    Io(std::io::Error),
}

impl From<std::io::Error> for Stop {
    fn from(error: std::io::Error) -> Stop {
        Stop::Io(error)
    }
}
