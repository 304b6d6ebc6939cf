//! Solo operations: one worker begins, and no other steps until its final
//! answer.

use super::states::every_state;
use second::phase::{self, Side};
use second::{begin_put, begin_take, layout, solo_steps, step};
use second::{Answer, Settings, MOVING, STEP_LIMIT};

pub const SIDES: [Side; 2] = [Side::Put, Side::Take];

/// Who begins what.
pub type Operation = (u32, Side);

pub fn begin(words: &mut [u32], (worker, side): Operation) -> Answer {
    match side {
        Side::Put => begin_put(words, worker, 0),
        Side::Take => begin_take(words, worker),
    }
}

/// From these words, with so many steps left in the step count, as after a long
/// run: the last answer, and how many steps it took.
pub fn solo(
    words: &[u32],
    operation: Operation,
    left: u32,
    mut before_each_step: impl FnMut(&mut [u32]),
) -> (Answer, u32) {
    let mut words = words.to_vec();
    words[layout::STEPS_COUNTED] = STEP_LIMIT - left;
    assert_eq!(begin(&mut words, operation), Answer::of(MOVING));
    let mut steps = 0;
    loop {
        before_each_step(&mut words);
        let answer = step(&mut words, operation.0);
        steps += u32::from(!answer.is_refusal());
        if answer.number != MOVING {
            return (answer, steps);
        }
    }
}

pub fn is_idle(words: &[u32], worker: u32) -> bool {
    let workers_at = Settings::of_words(words).workers_at();
    words[workers_at + layout::WORKER_WORDS * worker as usize + layout::PHASE] == phase::IDLE
}

/// From every state, each idle worker's put and take, with just the figure's
/// steps left: all come to a final answer. Looks at the words before the begin,
/// the operation, and how many steps it takes.
pub fn every_solo_operation(settings: Settings, mut look: impl FnMut(&[u32], Operation, u32)) {
    every_state(settings, |words| {
        for worker in (0..settings.workers).filter(|worker| is_idle(words, *worker)) {
            for operation in SIDES.map(|side| (worker, side)) {
                let left = solo_steps(&settings, operation.1);
                let (answer, steps) = solo(words, operation, left, |_| {});
                assert!(answer.is_final(), "{operation:?}, {answer:?}: {words:?}");
                look(words, operation, steps);
            }
        }
    });
}
