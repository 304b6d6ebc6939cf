//! The second implementation's summary: standard input to standard output.

use std::io::{stdin, stdout, Result};

fn main() -> Result<()> {
    second::summarize(stdin().lock(), stdout().lock())
}
