//! What is printed of a run file: by a program under test, and by the second
//! implementation.

use second::ListedTake;
use std::io;

pub const LISTER: &str = "lister";
pub const SUMMARY: &str = "summary";

/// Of a run file, with a look at each take that is listed.
type BySecond = fn(&[u8], &mut Vec<u8>, &mut dyn FnMut(&ListedTake)) -> io::Result<()>;

pub struct Printing {
    /// The program, and after two dashes the option that names it.
    pub program: &'static str,
    pub plural: &'static str,
    pub by_second: BySecond,
}

pub static PRINTINGS: [Printing; 2] = [
    Printing {
        program: LISTER,
        plural: "listings",
        by_second: |file, output, watch| second::list_watched(file, output, watch),
    },
    Printing {
        program: SUMMARY,
        plural: "summaries",
        by_second: |file, output, _| second::summarize(file, output),
    },
];
