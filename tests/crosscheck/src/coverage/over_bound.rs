//! The lister's stop with 30, by the second implementation (K9): how many of its
//! listings took it, and how many of their takes came nearest to it.

use super::counts::Counts;
use second::{closer_distance_bound, distance_bound, worst_distance};
use second::{ListedTake, Summary, QUEUE, STACK};

/// By the take, and the summary of its file.
type Near = (&'static str, fn(&ListedTake, &Summary) -> bool);

/// A distance of 0 does not count: it is the bound of a window of one sub.
const NEAR: [Near; 5] = [
    (
        "a listed take of a queue at the bound, no size set",
        |take, told| is_at_bound(take) && told.sizes == 0,
    ),
    (
        "a listed take of a queue at its own window's bound, above the pool's",
        |take, _| is_at_bound(take) && take.bound > distance_bound(&take.settings),
    ),
    (
        "a listed take of a queue at its own window's bound, below the pool's",
        |take, _| is_at_bound(take) && take.bound < distance_bound(&take.settings),
    ),
    (
        "a listed take of a stack at the worst distance",
        |take, _| passes_in_stack(take) && take.distance == worst_distance(&take.settings),
    ),
    ("a listed take of a stack at K14's bound", |take, _| {
        passes_in_stack(take) && take.distance == closer_distance_bound(&take.settings)
    }),
];

#[derive(Default)]
pub struct OverBound {
    listings: u64,
    takes: u64,
    /// Listings that took it.
    stopped: u64,
    near: Counts<{ NEAR.len() }>,
    /// How far distances above 0 in stacks stay below the bound, at least.
    below_in_stacks: Option<u32>,
}

impl OverBound {
    /// A listing of the second implementation, by all its takes.
    pub fn record(&mut self, takes: &[ListedTake], summary: &Summary) {
        self.listings += 1;
        self.takes += takes.len() as u64;
        self.stopped += u64::from(takes.iter().any(|take| take.stopped));
        for take in takes {
            self.near.add(NEAR.map(|(_, is_so)| is_so(take, summary)));
        }
        let in_stacks = takes.iter().filter(|take| passes_in_stack(take));
        let below = in_stacks.filter_map(|take| take.bound.checked_sub(take.distance));
        self.below_in_stacks = below.chain(self.below_in_stacks).min();
    }

    /// Prints the counts; what is missing comes back.
    pub fn report(&self) -> Vec<String> {
        // Without a lister there are no listings.
        if self.listings == 0 {
            return Vec::new();
        }
        println!(
            "{:9} listings with {} takes by the second implementation: {} took the stop with 30",
            self.listings, self.takes, self.stopped
        );
        let missing = self.near.report(NEAR);
        if let Some(below) = self.below_in_stacks {
            println!("listed takes of stacks with a distance above 0 stay {below} or more below the bound");
        }
        missing
    }
}

fn is_at_bound(take: &ListedTake) -> bool {
    take.settings.kind == QUEUE && take.distance > 0 && take.distance == take.bound
}

fn passes_in_stack(take: &ListedTake) -> bool {
    take.settings.kind == STACK && take.distance > 0
}
