//! Empties and fulls of random runs, one at a time: for each width, how many of
//! them cannot stand at their last steps, whatever the choice of the others'.
//! They change nothing on the list, and may stand earlier: an item may have come
//! since, or room.

use super::phases::kind_name;
use second::{AtLast, Placed, Settings, EMPTY, FULL, QUEUE, STACK};
use std::collections::BTreeMap;

#[derive(Clone, Copy, Default)]
struct Count {
    all: u64,
    early: u64,
}

#[derive(Default)]
pub struct Places {
    /// By kind, answer's number, and width.
    counts: BTreeMap<(u32, u32, u32), Count>,
    undecided: u64,
}

impl Places {
    pub fn record(&mut self, settings: &Settings, placed: &Placed) {
        for unchanging in &placed.unchanging {
            let key = (settings.kind, unchanging.number, settings.width);
            let count = self.counts.entry(key).or_default();
            count.all += 1;
            count.early += u64::from(unchanging.at_last == AtLast::Cannot);
            self.undecided += u64::from(unchanging.at_last == AtLast::Undecided);
        }
    }

    /// Prints the counts; what is missing comes back.
    pub fn report(&self) -> Vec<String> {
        println!(
            "empties and fulls of random runs that cannot stand at their last steps, by width, of how many; \
             {} undecided:",
            self.undecided
        );
        let mut missing = Vec::new();
        for (kind, number) in [(QUEUE, EMPTY), (QUEUE, FULL), (STACK, EMPTY), (STACK, FULL)] {
            let name = format!("{} {}", kind_name(kind), number_name(number));
            let of_name = self.counts.range((kind, number, 0)..=(kind, number, 16));
            let parts: Vec<String> = of_name
                .clone()
                .map(|((_, _, width), count)| format!("{width}: {}/{}", count.early, count.all))
                .collect();
            println!("{name:18} {}", parts.join(", "));
            let early: u64 = of_name.map(|(_, count)| count.early).sum();
            if number == EMPTY && early == 0 {
                missing.push(format!("a {name} that cannot stand at its last step"));
            }
        }
        missing
    }
}

fn number_name(number: u32) -> &'static str {
    match number {
        EMPTY => "empty",
        _ => "full",
    }
}
