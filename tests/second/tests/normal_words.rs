//! Normal words, on which a walk over every state rests: they go on as the words
//! do that they were made from.

mod common;

use common::normal::normal;
use common::states::{every_state, CALLS};
use common::{made, queue, stack, strided, Numbers};
use second::{Answer, Settings};

/// Each call of each worker answers with the same number, and at the same sub.
fn assert_alike(settings: &Settings, words: &[u32]) {
    for worker in 0..settings.workers {
        for call in CALLS {
            let mut after = [words.to_vec(), normal(words)];
            let answers = after.each_mut().map(|words| call(words, worker));
            let told = |answer: Answer| (answer.number, answer.sub);
            assert_eq!(told(answers[0]), told(answers[1]), "{words:?}");
            assert_eq!(normal(&after[0]), normal(&after[1]), "{words:?}");
        }
    }
}

/// Some workers go on for a while, with puts alone or takes alone, and then
/// others.
#[test]
fn they_go_on_alike() {
    let mut numbers = Numbers(1);
    let pools = [
        queue(1, 2, 4, 3),
        queue(3, 1, 4, 4),
        strided(2, queue(3, 1, 4, 4)),
        stack(1, 1, 1, 3, 3),
        stack(3, 2, 1, 6, 4),
        strided(2, stack(3, 2, 1, 6, 4)),
    ];
    for settings in pools {
        let workers = settings.workers as usize;
        let mut words = made(settings);
        let mut awake = vec![true; workers];
        let [mut begin, _, step] = CALLS;
        for turn in 0..5_000 {
            if turn % 40 == 0 {
                awake.fill_with(|| numbers.below(2) == 0);
                begin = CALLS[numbers.below(2)];
            }
            assert_alike(&settings, &words);
            let worker = numbers.below(workers);
            if awake[worker] && step(&mut words, worker as u32).is_refusal() {
                begin(&mut words, worker as u32);
            }
        }
    }
}

#[test]
fn they_are_their_own_normal_words() {
    for settings in [queue(2, 1, 2, 2), stack(2, 1, 1, 2, 2)] {
        let states = every_state(settings, |words| assert_eq!(normal(words), words));
        assert!(states > 1_000, "{settings:?}: {states}");
    }
}
