//! Stretches of a queue (K7): the most steps without a final answer for each
//! width beside the figure, which a script comes up to, and those of the random
//! runs of small queues.

use second::{longest_stretch, Settings, QUEUE};
use std::collections::BTreeMap;

/// By width and workers.
type Longest = BTreeMap<(u32, u32), u32>;

/// How many workers are told apart: one has its own figure, and two play the
/// part of any number.
const CREWS: [(&str, std::ops::RangeInclusive<u32>); 3] = [
    ("one worker", 1..=1),
    ("two workers", 2..=2),
    ("more workers", 3..=32),
];
/// The random runs of larger queues do not come near the figure.
const SMALL: u32 = 4;

#[derive(Default)]
pub struct Stretch {
    pub scripts: u64,
    by_script: Longest,
    in_runs: Longest,
}

impl Stretch {
    pub fn record_script(&mut self, settings: &Settings, steps: u32) {
        self.scripts += 1;
        note(&mut self.by_script, settings, steps);
    }

    pub fn record_run(&mut self, settings: &Settings, steps: u32) {
        if settings.kind == QUEUE {
            note(&mut self.in_runs, settings, steps);
        }
    }

    /// Prints the most steps; what is missing comes back.
    pub fn report(&self) -> Vec<String> {
        println!(
            "{} scripts of stretches; by width x workers the most steps without an answer and the figure:",
            self.scripts
        );
        let mut missing = Vec::new();
        for (name, crew) in CREWS {
            let mut parts = Vec::new();
            for width in 1..=16 {
                let key = |workers| (width, workers);
                let of_width = self.by_script.range(key(*crew.start())..=key(*crew.end()));
                match of_width.max_by_key(|(_, steps)| **steps) {
                    Some((key, steps)) => parts.push(beside_figure(*key, *steps)),
                    None => missing.push(format!("a stretch at width {width} with {name}")),
                }
            }
            println!("{name:18} {}", parts.join(", "));
        }
        println!("the same of random runs of small queues:");
        for workers in 1..=SMALL {
            let small = (1..=SMALL).map(|width| (width, workers));
            let seen = small.map(|key| (key, self.in_runs.get(&key).copied().unwrap_or(0)));
            let parts: Vec<String> = seen.map(|(key, steps)| beside_figure(key, steps)).collect();
            println!("{:18} {}", format!("workers: {workers}"), parts.join(", "));
        }
        missing
    }
}

fn note(longest: &mut Longest, settings: &Settings, steps: u32) {
    let most = longest
        .entry((settings.width, settings.workers))
        .or_default();
    *most = steps.max(*most);
}

/// Of a queue of this width and so many workers, whatever its other settings.
fn beside_figure((width, workers): (u32, u32), steps: u32) -> String {
    let settings = Settings {
        kind: QUEUE,
        width,
        depth: 1,
        shift: 1,
        rows: 2,
        workers,
        stride: 0,
    };
    let figure = longest_stretch(&settings);
    format!("{width}x{workers}: {steps}/{figure}")
}
