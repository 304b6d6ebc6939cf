//! How many items a take may pass over, and how many are held at a "full".
//! Demand 3's numbers are the ones that paper 01 uses (One at a time; number
//! 30). For a stack there are closer ones: K14's, the sources', and the exact
//! one. All of them count each item passed over, a spacer too (K4), and so they
//! also stand above the distance, which counts no spacers.

use crate::pool::settings::{Settings, QUEUE};
use crate::pool::size::Size;
use crate::pool::Pool;

/// What a take passes over stands in the other subs: d older items in each of
/// a queue's, the same in every figure here, and so many newer ones in each of
/// a stack's.
fn in_other_subs(settings: &Settings, of_stack: u32) -> u32 {
    let per_sub = if settings.kind == QUEUE {
        settings.depth
    } else {
        of_stack
    };
    (settings.width - 1) * per_sub
}

/// Demand 3: a take may pass over this many items: older ones of a queue,
/// (w - 1) x d; newer ones of a stack, (w - 1) x (2d + 2s). Of a queue whose windows
/// have sizes of their own it is the figure of those that have the pool's.
pub fn distance_bound(settings: &Settings) -> u32 {
    in_other_subs(settings, 2 * settings.depth + 2 * settings.shift)
}

/// K14: one row less on the stack, (w - 1) x (2d + 2s - 1).
pub fn closer_distance_bound(settings: &Settings) -> u32 {
    in_other_subs(settings, 2 * settings.depth + 2 * settings.shift - 1)
}

/// Source 001, (w - 1) x (d + 2s). It is no bound: where the shift is below
/// the depth and there are rows enough, a take passes over more.
pub fn framework_figure(settings: &Settings) -> u32 {
    in_other_subs(settings, settings.depth + 2 * settings.shift)
}

/// Source 003, (w - 1) x (d + 2s + s x floor((d - 1) / s)). A bound, and the
/// exact one where the rows leave room for it.
pub fn thesis_figure(settings: &Settings) -> u32 {
    let Settings { depth, shift, .. } = *settings;
    let back_in_reach = shift * ((depth - 1) / shift);
    in_other_subs(settings, depth + 2 * shift + back_in_reach)
}

/// The most items that a take passes over, in all runs from make with two
/// workers or more, and so the greatest distance, which it has where none of
/// them is a spacer: a queue's bound; in a stack what source 003 says, unless G
/// is at its highest below that. G goes from d in shifts while it stays within
/// R, which no source has.
pub fn worst_distance(settings: &Settings) -> u32 {
    let Settings { depth, shift, .. } = *settings;
    let shifts = (settings.rows - depth) / shift;
    let highest_window = depth + shift * shifts;
    thesis_figure(settings).min(in_other_subs(settings, highest_window))
}

/// "Full" is answered with at least this many items held: w x (R - d) in a
/// queue, w x (R - s + 1) in a stack.
pub fn full_bound(settings: &Settings) -> u32 {
    let per_sub = if settings.kind == QUEUE {
        settings.rows - settings.depth
    } else {
        settings.rows - settings.shift + 1
    };
    settings.width * per_sub
}

/// The size of the window that a worker of a queue has seen, past its window phase.
pub(crate) fn seen_size(pool: &Pool, worker: u32) -> Size {
    if !pool.has_sizes() {
        return Size::of_pool(&pool.settings);
    }
    let worker = pool.worker(worker);
    Size {
        width: worker.seen_width,
        depth: worker.seen_window.wrapping_sub(worker.seen_bottom),
    }
}

/// K8: "every place in the windows after the take window": how many these are, just
/// before a queue is found full. Where each window has the pool's size that is the
/// figure above.
pub(crate) fn places_after_take_window(pool: &Pool) -> u32 {
    if !pool.has_sizes() {
        return full_bound(&pool.settings);
    }
    let places = |size: Size| size.width * size.depth;
    (1..pool.live()).map(|k| places(pool.live_size(k))).sum()
}
