//! The dispatcher once more, as a caller of `step` would write it: it knows an
//! idle worker only by the 26.

use second::{layout, step};
use second::{Dispatched, IDLE, NO_WORKER};

pub fn dispatch_by_steps(words: &mut [u32], named: u32, count: u32) -> Dispatched {
    // No pool has a worker of this number: another refusal is one of fit.
    let refusal = step(&mut words.to_vec(), u32::MAX).number;
    if refusal != NO_WORKER || named >= words[layout::WORKERS] {
        return Dispatched::Refused(refusal);
    }
    let workers = words[layout::WORKERS];
    if (0..workers).all(|worker| step(&mut words.to_vec(), worker).number == IDLE) {
        return Dispatched::NoneBusy;
    }
    let mut worker = named;
    let mut next = named;
    let mut left = count;
    while left > 0 {
        let answer = step(words, worker);
        if answer.is_final() {
            return Dispatched::Finished { worker, answer };
        }
        let after = if worker + 1 == workers { 0 } else { worker + 1 };
        if answer.number != IDLE {
            if answer.is_refusal() {
                return Dispatched::Refused(answer.number);
            }
            left -= 1;
            next = after;
        }
        worker = after;
    }
    Dispatched::RanOut { next }
}
