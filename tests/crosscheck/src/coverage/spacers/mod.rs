//! Spacers (K4): for each kind and share of them, how many takes came to each
//! corner, in runs from make and in images, and how many run files have a last take
//! that tells.

mod corners;

use super::by_origin::ByOrigin;
use super::phases::kind_name;
use super::Origin;
use crate::make_up::values::SHARES;
use crate::take::Take;
use corners::{Corner, CORNERS};
use second::{QUEUE, STACK};
use std::collections::BTreeMap;

/// A kind, and a share of spacers.
type Key = (u32, u32);

#[derive(Default)]
pub struct Spacers {
    takes: BTreeMap<Key, [ByOrigin; CORNERS.len()]>,
    files: BTreeMap<Key, u64>,
}

impl Spacers {
    pub fn record(&mut self, take: &Take, origin: Origin) {
        let Some(share) = origin.share else {
            return;
        };
        let takes = self.takes.entry((take.settings.kind, share)).or_default();
        for (takes, corner) in takes.iter_mut().zip(&CORNERS) {
            takes.add(origin, (corner.is_so)(take));
        }
    }

    /// The last take of a run file of this share. It tells if it passes over what
    /// the share is about: spacers, or with none of them items to report.
    pub fn record_file(&mut self, take: &Take, share: u32) {
        let tells = match share {
            0 => take.reported > 0,
            _ => take.passes_spacers(),
        };
        let files = self.files.entry((take.settings.kind, share)).or_default();
        *files += u64::from(tells);
    }

    /// Prints the counts; what is missing comes back.
    pub fn report(&self) -> Vec<String> {
        println!("takes by their share of spacers: from make / in images");
        let mut missing = Vec::new();
        for kind in [QUEUE, STACK] {
            for (at, corner) in CORNERS.iter().enumerate() {
                self.report_corner(kind, at, corner, &mut missing);
            }
        }
        // Without a lister there are no run files.
        if !self.files.is_empty() {
            self.report_files(&mut missing);
        }
        missing
    }

    fn report_corner(&self, kind: u32, at: usize, corner: &Corner, missing: &mut Vec<String>) {
        let name = format!("{}, {}", kind_name(kind), corner.name);
        let mut parts = Vec::new();
        for share in corner.shares {
            let of_share = self.takes.get(&(kind, *share));
            let takes = of_share.map_or(ByOrigin::default(), |takes| takes[at]);
            parts.push(format!("{share} %: {takes}"));
            let asked = [
                (corner.from_make, takes.from_make, "a run from make"),
                (corner.in_images, takes.in_images, "an image"),
            ];
            for (_, _, place) in asked.iter().filter(|(asked, n, _)| *asked && *n == 0) {
                missing.push(format!("{name}, in {place} with {share} % spacers"));
            }
        }
        println!("{name:53} {}", parts.join(", "));
    }

    fn report_files(&self, missing: &mut Vec<String>) {
        for kind in [QUEUE, STACK] {
            let name = format!("{}, run files whose last take tells", kind_name(kind));
            let mut parts = Vec::new();
            for share in SHARES {
                let files = self.files.get(&(kind, share)).copied().unwrap_or(0);
                parts.push(format!("{share} %: {files}"));
                if files == 0 {
                    missing.push(format!("{name}, with {share} % spacers"));
                }
            }
            println!("{name:53} {}", parts.join(", "));
        }
    }
}
