//! Sizes of put windows (K8): within their limits, at them and off, and how a run changes
//! them.

use super::junk;
use crate::rng::Rng;
use second::{Settings, Size};

/// The greatest depth within limits.
pub fn deepest(settings: &Settings) -> u32 {
    (settings.rows / 2).min(64)
}

/// Often the pool's own, the least, the widest or the deepest.
pub fn within(rng: &mut Rng, settings: &Settings) -> Size {
    let (some, deepest) = (rng.between(1, settings.width), deepest(settings));
    let depths = [rng.between(1, deepest), settings.depth, 1, deepest];
    Size {
        width: rng.pick(&[some, settings.width]),
        depth: rng.pick(&depths),
    }
}

/// One of its two numbers off limits, mostly just so, and sometimes both.
pub fn off(rng: &mut Rng, settings: &Settings) -> Size {
    let size = within(rng, settings);
    let junk = junk::word(rng);
    let widths = [0, settings.width.saturating_add(1), 17, 1 << 31, junk];
    let above = [deepest(settings) + 1, settings.rows / 2 + 1, 65];
    let depths = [&above[..], &[0, 127, 1 << 31, junk]].concat();
    let (width, depth) = (rng.pick(&widths), rng.pick(&depths));
    match rng.below(5) {
        0..=1 => Size { width, ..size },
        2..=3 => Size { depth, ..size },
        _ => Size { width, depth },
    }
}

/// Of any words: their settings may be off limits.
pub fn any(rng: &mut Rng, settings: &Settings) -> Size {
    let near = Settings {
        width: settings.width.clamp(1, 16),
        depth: settings.depth.clamp(1, 64),
        rows: settings.rows.clamp(2, 1024),
        ..*settings
    };
    match rng.chance(75) {
        true => within(rng, &near),
        false => off(rng, &near),
    }
}

/// What sizes a run sets, and how often.
#[derive(Clone, Copy)]
pub struct Changes {
    percent: u32,
    sort: Sort,
}

#[derive(Clone, Copy)]
enum Sort {
    Any,
    /// Of any width and the least depth: the most windows come to be live.
    Shallow,
    /// Narrow and wide in turn, as at a search's end and at the next one's start.
    NarrowAndWide,
}

impl Changes {
    pub const NONE: Changes = Changes {
        percent: 0,
        sort: Sort::Any,
    };

    /// None, now and then, or often.
    pub fn new(rng: &mut Rng) -> Changes {
        Changes {
            percent: rng.pick(&[0, 0, 1, 4, 15]),
            sort: rng.pick(&[Sort::Any, Sort::Shallow, Sort::NarrowAndWide]),
        }
    }

    /// The size that is set next, if one is.
    pub fn next(&self, rng: &mut Rng, settings: &Settings) -> Option<Size> {
        rng.chance(self.percent).then(|| self.size(rng, settings))
    }

    fn size(&self, rng: &mut Rng, settings: &Settings) -> Size {
        if rng.chance(5) {
            return off(rng, settings);
        }
        let size = within(rng, settings);
        let depth = match self.sort {
            Sort::Shallow if rng.chance(90) => 1,
            _ => size.depth,
        };
        let width = match self.sort {
            Sort::NarrowAndWide => rng.pick(&[1, settings.width]),
            _ => size.width,
        };
        Size { width, depth }
    }
}
