//! What becomes of the operations that a move met under way.

use crate::make_up::workers::Workers;
use crate::moved::Trip;
use crate::side_by_side::Checks;
use second::phase::{Side, Stage, IDLE};
use second::Settings;

#[derive(Default)]
pub struct Met {
    /// The last move.
    moved: Option<Trip>,
    /// By worker: the phase in which it met it, until its next final answer.
    phases: Vec<Option<u32>>,
}

impl Met {
    /// The pool goes on in words that this move has left.
    pub fn has_moved(&mut self, trip: Trip, words: &[u32]) {
        let workers = Workers {
            settings: &Settings::of_words(words),
            words,
        };
        let phase = |worker| {
            let busy = workers.stage(worker);
            busy.map_or(IDLE, |(side, stage): (Side, Stage)| side.phase(stage))
        };
        self.phases = (0..workers.number()).map(|w| Some(phase(w))).collect();
        self.moved = Some(trip);
    }

    /// A call after the last move. With a final answer the operation that the move met
    /// under way has come to its end, or an idle worker's next one.
    pub fn note(
        &mut self,
        call: &'static str,
        number: u32,
        finished: Option<u32>,
        checks: &mut Checks,
    ) {
        let Some(trip) = self.moved else {
            return;
        };
        let moves = &mut checks.coverage.moves;
        moves.record_later(trip, call, number);
        let met = finished.and_then(|worker| self.phases.get_mut(worker as usize));
        if let Some(phase) = met.and_then(Option::take) {
            moves.record_finished(trip, phase);
        }
    }
}
