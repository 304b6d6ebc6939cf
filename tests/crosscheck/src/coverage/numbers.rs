//! The numbers that each call can answer (paper 01, Returned by the calls; K6 for
//! a move; K8 for one of edition 2 and for a size; K7 for a dispatch, which C gets with 5 for nobody busy and 6 for no steps
//! left).

use sides::Call;
use std::collections::BTreeMap;

pub const DISPATCH: &str = "dispatch";
pub const SET_SIZE: &str = "set size";

pub const NUMBERS: [(&str, &[u32]); 10] = [
    ("make", &[0, 21, 22]),
    ("begin put", &[0, 21, 23, 24, 25, 27]),
    ("begin take", &[0, 21, 23, 24, 25, 27]),
    ("step", &[0, 1, 2, 3, 4, 21, 23, 24, 26, 27]),
    (SET_SIZE, &[0, 21, 23, 32]),
    (DISPATCH, &[1, 2, 3, 4, 5, 6, 21, 23, 24, 27]),
    ("move 0 to 1", &[0, 21, 23, 31]),
    ("move 1 to 0", &[0, 21, 23, 31]),
    ("move 1 to 2", &[0, 21, 23, 31, 33]),
    ("move 2 to 1", &[0, 21, 23, 31, 33]),
];

pub fn name(call: Call) -> &'static str {
    match call {
        Call::Make(_) => "make",
        Call::BeginPut { .. } => "begin put",
        Call::BeginTake { .. } => "begin take",
        Call::Step { .. } => "step",
        Call::SetSize(_) => SET_SIZE,
    }
}

#[derive(Clone, Default)]
pub struct Numbers(BTreeMap<(&'static str, u32), u64>);

impl Numbers {
    pub fn record(&mut self, name: &'static str, number: u32) {
        *self.0.entry((name, number)).or_default() += 1;
    }

    /// Prints the counts of these numbers; what is missing comes back.
    pub fn report(&self, asked: &[(&'static str, &[u32])]) -> Vec<String> {
        let mut missing = Vec::new();
        for (call, numbers) in asked {
            let mut parts = Vec::new();
            for number in *numbers {
                let count = self.0.get(&(*call, *number)).copied().unwrap_or(0);
                parts.push(format!("{number}: {count}"));
                if count == 0 {
                    missing.push(format!("{call} answers {number}"));
                }
            }
            println!("{call:12} answers  {}", parts.join(", "));
        }
        missing
    }
}
