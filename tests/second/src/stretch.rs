//! How many steps a queue from make can make without a final answer, in all
//! orders: a stretch. K7: "For a line from make, in all orders: of any
//! 6 x n x (w + 1) + 1 counted steps in a row, begins between them allowed, at
//! least one gives put, taken, empty or full. A pile gets the dispatcher
//! without that figure."

use crate::pool::settings::Settings;

/// K7's own number, 6n(w + 1): with one step more there is an answer.
pub fn stretch_bound(settings: &Settings) -> u32 {
    6 * settings.workers * (settings.width + 1)
}

/// The most steps of a stretch; the cross-check's script comes to them. No
/// item comes or goes in it, so that a commit fails, and a sum is not 0, only
/// by what the worker has seen before the stretch. A pass is w reads.
pub fn longest_stretch(settings: &Settings) -> u32 {
    let w = settings.width;
    if settings.workers == 1 {
        // A take: window, a pass, a shift; window, a pass that hits at its end.
        return 2 * w + 3;
    }
    // A put, of the worker whose answer came before the stretch: window, a pass,
    // a shift; window, a read that hits.
    let put = w + 4;
    // A take that has read one sub: the rest of that pass, w confirms in vain;
    // window, a pass, a shift; window, a pass over bare subs, w - 1 confirms.
    let after_a_read = 5 * w + 1;
    // One that has seen a window which moved since: a pass, a shift in vain; and
    // then the same.
    let after_a_window = 4 * w + 3;
    (settings.workers - 1) * after_a_read.max(after_a_window) + put
}
