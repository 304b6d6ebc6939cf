//! The second implementation's run lister: standard input to standard output.

use std::io::{stdin, stdout, Result};

fn main() -> Result<()> {
    second::list(stdin().lock(), stdout().lock())
}
