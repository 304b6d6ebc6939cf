//! Each outcome of each phase of both kinds (paper 01, One step).

use super::Seen;
use second::phase::{self, Side, Stage};
use second::{layout, MOVING, QUEUE, STACK, UNFIT};
use std::collections::BTreeMap;

/// What a step, or a begin for the idle phase, led to.
#[derive(Clone, Copy, PartialEq, Eq, PartialOrd, Ord)]
enum Outcome {
    /// On to a phase, or once more in it.
    To(u32),
    /// A window moved, then restart.
    Moved,
    Answer(u32),
}

#[derive(Default)]
pub struct Phases(BTreeMap<(u32, u32, Outcome), u64>);

impl Phases {
    pub fn record(&mut self, seen: &Seen) {
        let outcome = match seen.answer.number {
            MOVING if windows(seen.before) != windows(seen.after) => Outcome::Moved,
            MOVING => Outcome::To(seen.phase_after),
            number => Outcome::Answer(number),
        };
        let key = (seen.settings.kind, seen.worker[layout::PHASE], outcome);
        *self.0.entry(key).or_default() += 1;
    }

    pub fn report(&self) -> Vec<String> {
        let mut missing = Vec::new();
        for kind in [QUEUE, STACK] {
            for phase in (0..15).filter(|phase| phase::is_of_kind(kind, *phase)) {
                self.report_phase(kind, phase, &mut missing);
            }
        }
        missing
    }

    fn report_phase(&self, kind: u32, phase: u32, missing: &mut Vec<String>) {
        let mut total = 0;
        let mut parts = Vec::new();
        let from = format!("{} {}", kind_name(kind), phase_name(phase));
        for outcome in outcomes(kind, phase) {
            let count = self.0.get(&(kind, phase, outcome)).copied().unwrap_or(0);
            let name = outcome_name(outcome);
            total += count;
            parts.push(format!("{name}: {count}"));
            if count == 0 {
                missing.push(format!("{from}, {name}"));
            }
        }
        println!("{from:18} {total:9}  {}", parts.join(", "));
    }
}

/// All that can come of a phase (paper 01, One step).
fn outcomes(kind: u32, phase: u32) -> Vec<Outcome> {
    use Outcome::{Answer, Moved, To};
    let Some((side, stage)) = phase::decode(phase) else {
        return vec![To(1), To(9)];
    };
    let to = |stage| To(side.phase(stage));
    let (placed, none) = match side {
        Side::Put => (Answer(second::PUT), Answer(second::FULL)),
        Side::Take => (Answer(second::TAKEN), Answer(second::EMPTY)),
    };
    let queue = kind == QUEUE;
    match stage {
        Stage::Window => vec![to(Stage::Read)],
        Stage::Read if !queue => vec![To(phase), to(Stage::Check), to(Stage::Shift)],
        Stage::Read if side == Side::Put => vec![To(phase), to(Stage::Commit), to(Stage::Shift)],
        Stage::Read => vec![
            To(phase),
            to(Stage::Commit),
            to(Stage::Shift),
            to(Stage::Confirm),
        ],
        Stage::Check => vec![to(Stage::Commit), to(Stage::Window)],
        Stage::Commit => vec![placed, to(Stage::Window), Answer(UNFIT)],
        Stage::Shift if queue => vec![Moved, to(Stage::Window), none],
        Stage::Shift => vec![Moved, to(Stage::Window), to(Stage::Confirm)],
        Stage::Confirm => vec![To(phase), to(Stage::Window), none],
    }
}

/// The words that only a shift changes.
fn windows(words: &[u32]) -> [u32; 2] {
    [words[layout::PUT_WINDOW], words[layout::TAKE_WINDOW]]
}

pub fn kind_name(kind: u32) -> &'static str {
    if kind == QUEUE {
        "queue"
    } else {
        "stack"
    }
}

pub fn phase_name(phase: u32) -> String {
    match phase::decode(phase) {
        Some((side, stage)) => format!("{side:?} {stage:?}").to_lowercase(),
        None => "idle".to_string(),
    }
}

fn outcome_name(outcome: Outcome) -> String {
    match outcome {
        Outcome::To(phase) => format!("to {}", phase_name(phase)),
        Outcome::Moved => "window moved".to_string(),
        Outcome::Answer(number) => format!("answer {number}"),
    }
}
