//! Settings within, at and off their limits.

use super::junk;
use crate::rng::Rng;
use second::{Edition, Settings, QUEUE, STACK};
use std::ops::Range;

/// Within and off the limits of each width.
pub const STRIDES: Range<u32> = 0..17;

/// No pool needs more words.
pub const LARGEST: Settings = Settings {
    kind: QUEUE,
    width: 16,
    depth: 64,
    shift: 64,
    rows: 256,
    workers: 32,
    stride: 0,
};

#[derive(Clone, Copy, PartialEq, Eq)]
pub enum Size {
    Small,
    Medium,
    /// Few narrow windows, many rows and workers: what goes wrong at windows
    /// can go far.
    Deep,
    /// At the limits of the paper.
    Large,
}

/// The same with rows of whole windows, as editions 0 and 1 ask for in a queue.
pub fn whole_windows(settings: Settings) -> Settings {
    let beyond = match settings.kind {
        QUEUE => settings.rows % settings.depth,
        _ => 0,
    };
    Settings {
        rows: settings.rows - beyond,
        ..settings
    }
}

/// Settings within limits.
pub fn within(rng: &mut Rng, size: Size) -> Settings {
    let kind = rng.pick(&[QUEUE, STACK]);
    of_kind(rng, kind, size)
}

/// With the workers that a script to the worst distance needs.
pub fn of_script(rng: &mut Rng, kind: u32) -> Settings {
    let size = match rng.below(10) {
        0 => Size::Large,
        1..=5 => Size::Medium,
        _ => Size::Small,
    };
    let settings = of_kind(rng, kind, size);
    if kind == QUEUE {
        return settings;
    }
    // Few rows are the limit of a script more often than many.
    let fewer_rows = rng.between(2 * settings.depth, settings.rows);
    Settings {
        rows: rng.pick(&[settings.rows, fewer_rows]),
        workers: settings.workers.max(2),
        ..settings
    }
}

/// The same with the smallest worst distance above 0: one item in a queue, two in
/// a stack.
pub fn of_least_script(rng: &mut Rng, kind: u32) -> Settings {
    Settings {
        kind,
        width: 2,
        depth: 1,
        shift: 1,
        rows: 2,
        workers: rng.between(2, 4),
        stride: rng.below(2),
    }
}

/// With the workers that a script to a solo operation's most steps needs, and
/// in a stack with rows for two shifts.
pub fn of_solo_script(rng: &mut Rng, kind: u32, width: u32, size: Size) -> Settings {
    let settings = of_width(rng, kind, width, size);
    let least_rows = match kind {
        QUEUE => 0,
        _ => settings.depth + 2 * settings.shift,
    };
    Settings {
        rows: settings.rows.max(least_rows),
        workers: settings.workers.max(2),
        ..settings
    }
}

/// A queue, for the script to its longest stretch: with one worker, with two, or
/// with three or more.
pub fn of_stretch_script(rng: &mut Rng, width: u32, crew: u32, size: Size) -> Settings {
    let settings = of_width(rng, QUEUE, width, size);
    let workers = match crew {
        1 | 2 => crew,
        _ => settings.workers.max(3),
    };
    Settings {
        workers,
        ..settings
    }
}

/// The same with two workers or more.
pub fn with_two_workers(settings: Settings) -> Settings {
    Settings {
        workers: settings.workers.max(2),
        ..settings
    }
}

/// With this stride, within its limits or off, and the workers for a lost commit.
pub fn of_stride(rng: &mut Rng, kind: u32, width: u32, stride: u32) -> Settings {
    let settings = of_width(rng, kind, width, Size::Small);
    Settings {
        workers: settings.workers.max(2),
        stride,
        ..settings
    }
}

/// Settings of this kind within limits.
pub fn of_kind(rng: &mut Rng, kind: u32, size: Size) -> Settings {
    let widths = match size {
        Size::Small => 4,
        Size::Deep => 2,
        Size::Medium | Size::Large => 16,
    };
    let width = up_to(rng, widths, size);
    of_width(rng, kind, width, size)
}

/// Settings of this kind and width within limits.
pub fn of_width(rng: &mut Rng, kind: u32, width: u32, size: Size) -> Settings {
    let (depths, depths_in_rows, workers) = match size {
        Size::Small => (3, 4, 4),
        Size::Medium => (8, 8, 32),
        Size::Deep => (2, 24, 32),
        Size::Large => (64, 1024, 32),
    };
    let depth = up_to(rng, depths, size);
    let most_rows = (depth * depths_in_rows).min(1024).min(4096 / width);
    let mut rows = 2 * depth - 1 + up_to(rng, most_rows - 2 * depth + 1, size);
    let some = rng.between(1, depth);
    let mut shift = rng.pick(&[1, some, depth]);
    if kind == QUEUE {
        shift = depth;
        if rng.chance(50) {
            rows -= rows % depth;
        }
    }
    Settings {
        kind,
        width,
        depth,
        shift,
        rows,
        workers: up_to(rng, workers, size),
        stride: rng.below(width),
    }
}

/// 1 to most; deep and large settings take the most often.
fn up_to(rng: &mut Rng, most: u32, size: Size) -> u32 {
    let at_its_limits = matches!(size, Size::Deep | Size::Large);
    if at_its_limits && rng.chance(50) {
        most
    } else {
        rng.between(1, most)
    }
}

/// Settings of which one or two may be off limits, mostly just so.
pub fn any(rng: &mut Rng) -> Settings {
    let size = rng.pick(&[Size::Small, Size::Medium, Size::Large]);
    let mut settings = within(rng, size);
    for _ in 0..rng.below(3) {
        let field = rng.below(7);
        spoil(rng, &mut settings, field);
    }
    settings
}

/// One of them off limits in this edition, the stride not for itself.
pub fn off_limits_in(rng: &mut Rng, edition: Edition, settings: &Settings) -> Settings {
    loop {
        let mut off = *settings;
        let field = rng.below(6);
        spoil(rng, &mut off, field);
        if !(Settings { stride: 0, ..off }).within_limits_in(edition) {
            return off;
        }
    }
}

fn spoil(rng: &mut Rng, settings: &mut Settings, field: u32) {
    let field = match field {
        0 => &mut settings.kind,
        1 => &mut settings.width,
        2 => &mut settings.depth,
        3 => &mut settings.shift,
        4 => &mut settings.rows,
        5 => &mut settings.workers,
        _ => &mut settings.stride,
    };
    *field = near_a_limit(rng, *field);
}

fn near_a_limit(rng: &mut Rng, now: u32) -> u32 {
    match rng.below(4) {
        0 => now.wrapping_add(1),
        1 => now.wrapping_sub(1),
        2 => rng.pick(&[
            0,
            1,
            2,
            16,
            17,
            32,
            33,
            64,
            65,
            256,
            257,
            1024,
            1025,
            1 << 16,
            1 << 31,
        ]),
        _ => junk::word(rng),
    }
}
