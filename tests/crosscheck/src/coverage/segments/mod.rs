//! The segments that the distance of a take goes through (K2): for each kind and
//! width, how many takes came to each corner, in runs from make and in images.

mod corners;

use super::by_origin::ByOrigin;
use super::phases::kind_name;
use super::Origin;
use crate::take::Take;
use corners::{Corner, OF_QUEUES, OF_STACKS};
use second::{QUEUE, STACK};

const WIDTHS: usize = 16;

/// By corner and width, from 1 on.
struct ByWidth<const N: usize>([[ByOrigin; WIDTHS]; N]);

#[derive(Default)]
pub struct Segments {
    of_queues: ByWidth<{ OF_QUEUES.len() }>,
    of_stacks: ByWidth<{ OF_STACKS.len() }>,
}

impl Segments {
    pub fn record(&mut self, take: &Take, origin: Origin) {
        match take.settings.kind {
            QUEUE => self.of_queues.record(&OF_QUEUES, take, origin),
            _ => self.of_stacks.record(&OF_STACKS, take, origin),
        }
    }

    /// Prints the counts; what is missing comes back.
    pub fn report(&self) -> Vec<String> {
        println!("subs that a distance goes through, by width: takes from make / in images");
        let mut missing = self.of_queues.report(&OF_QUEUES, kind_name(QUEUE));
        missing.extend(self.of_stacks.report(&OF_STACKS, kind_name(STACK)));
        missing
    }
}

impl<const N: usize> Default for ByWidth<N> {
    fn default() -> ByWidth<N> {
        ByWidth([[ByOrigin::default(); WIDTHS]; N])
    }
}

impl<const N: usize> ByWidth<N> {
    fn record(&mut self, corners: &[Corner; N], take: &Take, origin: Origin) {
        for (by_width, corner) in self.0.iter_mut().zip(corners) {
            let takes = &mut by_width[take.settings.width as usize - 1];
            takes.add(origin, take.subs.iter().any(corner.is_so));
        }
    }

    fn report(&self, corners: &[Corner; N], kind: &str) -> Vec<String> {
        let mut missing = Vec::new();
        for (by_width, corner) in self.0.iter().zip(corners) {
            let name = format!("{kind}, {}", corner.name);
            report_corner(&name, corner, by_width, &mut missing);
        }
        missing
    }
}

/// In images of each width; a run from make may be of any.
fn report_corner(
    name: &str,
    corner: &Corner,
    by_width: &[ByOrigin; WIDTHS],
    missing: &mut Vec<String>,
) {
    let least = corner.least_width;
    let mut parts = Vec::new();
    for (width, takes) in (least..).zip(&by_width[least - 1..]) {
        parts.push(format!("{width}: {takes}"));
        if takes.in_images == 0 {
            missing.push(format!("{name}, in an image of width {width}"));
        }
    }
    println!("{name:53} {}", parts.join(", "));
    let from_make: u64 = by_width.iter().map(|takes| takes.from_make).sum();
    if corner.from_make && from_make == 0 {
        missing.push(format!("{name}, in a run from make"));
    }
}
