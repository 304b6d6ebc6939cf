//! K8: "Each window has its own width (up to the pool's w) and depth (1 to 64, at
//! most half of R)".

use super::settings::Settings;

#[derive(Clone, Copy, Debug, PartialEq, Eq, PartialOrd, Ord, Hash)]
pub struct Size {
    pub width: u32,
    pub depth: u32,
}

impl Size {
    /// The one that all windows have before a size is set, and before edition 2.
    pub fn of_pool(settings: &Settings) -> Size {
        Size {
            width: settings.width,
            depth: settings.depth,
        }
    }

    /// Of a pool whose own settings are.
    pub fn within_limits(&self, settings: &Settings) -> bool {
        (1..=settings.width).contains(&self.width)
            && (1..=64).contains(&self.depth)
            && self.depth <= settings.rows / 2
    }

    /// Demand 3: a queue's take "passes over at most (width - 1) x depth older items
    /// by its own window's sizes".
    pub fn distance_bound(&self) -> u32 {
        (self.width - 1) * self.depth
    }
}
