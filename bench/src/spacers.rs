//! Which items of the benchmark are spacers.

use second::SPACER;

/// Spacers among a hundred items, where a table does not say otherwise.
pub const SHARE: u32 = 10;

/// The value of an item, by its number from 1 on: the number itself, or a spacer's, so
/// many times in a hundred and evenly.
pub fn value(number: u32, share: u32) -> u32 {
    if number * share % 100 < share {
        SPACER
    } else {
        number
    }
}
