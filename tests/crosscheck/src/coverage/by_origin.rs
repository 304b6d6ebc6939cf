//! How many calls came to a corner, in runs from make and in images.

use super::Origin;
use std::fmt;

#[derive(Clone, Copy, Default)]
pub struct ByOrigin {
    pub from_make: u64,
    pub in_images: u64,
}

impl ByOrigin {
    pub fn add(&mut self, origin: Origin, reached: bool) {
        let count = match origin.from_make {
            true => &mut self.from_make,
            false => &mut self.in_images,
        };
        *count += u64::from(reached);
    }
}

impl fmt::Display for ByOrigin {
    fn fmt(&self, to: &mut fmt::Formatter) -> fmt::Result {
        write!(to, "{}/{}", self.from_make, self.in_images)
    }
}
