//! Solo operations (K3): the most steps for each kind, side and width beside
//! the figure, which a script comes up to, and where the other workers had
//! stopped.

use super::phases::{kind_name, phase_name};
use second::phase::{self, Side, Stage};
use second::{layout, solo_steps, Settings, QUEUE, STACK};
use std::collections::BTreeMap;

const KINDS: [u32; 2] = [QUEUE, STACK];

#[derive(Default)]
pub struct Solo {
    pub operations: u64,
    /// By kind, name of the side, and width.
    most_steps: BTreeMap<(u32, &'static str, u32), u32>,
    /// By kind, phase, and whether in the middle of a pass.
    stopped: BTreeMap<(u32, u32, bool), u64>,
}

impl Solo {
    /// The words before the solo worker's begin.
    pub fn record_begin(&mut self, words: &[u32], solo_worker: u32) {
        let settings = Settings::of_words(words);
        let workers =
            words[settings.workers_at()..settings.cells_at()].chunks(layout::WORKER_WORDS);
        for (_, other) in (0..).zip(workers).filter(|(i, _)| *i != solo_worker) {
            let key = (settings.kind, other[layout::PHASE], is_mid_pass(other));
            *self.stopped.entry(key).or_default() += 1;
        }
    }

    pub fn record_end(&mut self, settings: &Settings, side: Side, steps: u32) {
        self.operations += 1;
        let key = (settings.kind, side_name(side), settings.width);
        let most = self.most_steps.entry(key).or_default();
        *most = steps.max(*most);
    }

    /// Prints the most steps and the counts; what is missing comes back.
    pub fn report(&self) -> Vec<String> {
        println!(
            "{} solo operations; by width their most steps and the figure, then where others had stopped:",
            self.operations
        );
        let mut missing = Vec::new();
        for kind in KINDS {
            for side in [Side::Put, Side::Take] {
                self.report_steps(kind, side, &mut missing);
            }
        }
        for kind in KINDS {
            self.report_stopped(kind, &mut missing);
        }
        missing
    }

    fn report_steps(&self, kind: u32, side: Side, missing: &mut Vec<String>) {
        let name = format!("{} {}", kind_name(kind), side_name(side));
        let mut parts = Vec::new();
        for width in 1..=16 {
            let key = (kind, side_name(side), width);
            let most = self.most_steps.get(&key).copied().unwrap_or(0);
            let figure = figure(kind, side, width);
            parts.push(format!("{width}: {most}/{figure}"));
            if most < figure {
                missing.push(format!("solo {name}, width {width}, {figure} steps"));
            }
        }
        println!("{name:18} {}", parts.join(", "));
    }

    fn report_stopped(&self, kind: u32, missing: &mut Vec<String>) {
        let name = format!("{} stopped", kind_name(kind));
        let mut parts = Vec::new();
        for phase in (0..15).filter(|phase| phase::is_of_kind(kind, *phase)) {
            for mid_pass in [false, true] {
                if mid_pass && !has_passes(phase) {
                    continue;
                }
                let key = (kind, phase, mid_pass);
                let count = self.stopped.get(&key).copied().unwrap_or(0);
                let at = if mid_pass { " mid-pass" } else { "" };
                let part = format!("{}{at}", phase_name(phase));
                if count == 0 {
                    missing.push(format!("{name} at {part} beside a solo operation"));
                }
                parts.push(format!("{part}: {count}"));
            }
        }
        println!("{name:18} {}", parts.join(", "));
    }
}

/// Of a pool of this kind and width, whatever its other settings.
fn figure(kind: u32, side: Side, width: u32) -> u32 {
    let settings = Settings {
        kind,
        width,
        depth: 1,
        shift: 1,
        rows: 2,
        workers: 1,
        stride: 0,
    };
    solo_steps(&settings, side)
}

fn has_passes(phase: u32) -> bool {
    matches!(
        phase::decode(phase),
        Some((_, Stage::Read | Stage::Confirm))
    )
}

fn is_mid_pass(worker: &[u32]) -> bool {
    has_passes(worker[layout::PHASE]) && worker[layout::SCAN] > 0
}

fn side_name(side: Side) -> &'static str {
    match side {
        Side::Put => "put",
        Side::Take => "take",
    }
}
