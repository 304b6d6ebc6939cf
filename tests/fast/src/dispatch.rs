//! The dispatcher: who is busy is read once, since no step but the last changes
//! it.

use crate::admit::{admit, Parts};
use crate::calls::step;
use second::layout::PHASE;
use second::{Dispatched, NO_WORKER};

pub fn dispatch<const N: usize>(words: &mut [u32], named: u32, count: u32) -> Dispatched {
    let parts: Parts<N> = match admit(words) {
        Ok(parts) => parts,
        Err(refusal) => return Dispatched::Refused(refusal),
    };
    let workers = parts.workers;
    let number = workers.len() as u32;
    if named >= number {
        return Dispatched::Refused(NO_WORKER);
    }
    // A bit for each worker, the lowest for worker 0.
    let bits = workers.iter().rev();
    let busy = bits.fold(0_u32, |busy, worker| {
        busy << 1 | u32::from(worker[PHASE] != 0)
    });
    if busy == 0 {
        return Dispatched::NoneBusy;
    }
    let mut turn = named;
    for _ in 0..count {
        let from_turn = busy >> turn << turn;
        let round = if from_turn == 0 { busy } else { from_turn };
        let worker = round.trailing_zeros();
        let answer = step::<N>(words, worker);
        if answer.is_final() {
            return Dispatched::Finished { worker, answer };
        }
        if answer.is_refusal() {
            return Dispatched::Refused(answer.number);
        }
        turn = if worker + 1 == number { 0 } else { worker + 1 };
    }
    Dispatched::RanOut { next: turn }
}
