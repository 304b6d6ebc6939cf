//! The stride: its limits, in make and in word 10, and the hop of a commit that
//! failed.

mod common;

use common::solo::is_idle;
use common::states::CALLS;
use common::{finish, made, put_answer, queue, set_phase, stack, strided, Numbers};
use second::phase::{decode, Side, Stage};
use second::{begin_put, layout, make, step, Answer, Settings};
use second::{CURRENT_EDITION, MOVING, OFF_LIMITS, TOO_SHORT, UNFIT};

/// Strides within and off the limits of every width.
fn strides() -> impl Iterator<Item = u32> {
    (0..40).chain([u32::MAX])
}

/// Of each kind and width, with stride 0; two workers for each sub.
fn every_width() -> impl Iterator<Item = Settings> {
    (1..=16).flat_map(|w| [queue(w, 1, 2, 2 * w), stack(w, 1, 1, 2, 2 * w)])
}

/// Of each kind and width, with each of its strides.
fn every_stride() -> impl Iterator<Item = Settings> {
    every_width().flat_map(|pool| (0..pool.width).map(move |stride| strided(stride, pool)))
}

/// Workers 0 and 3 both have read sub 0. The second one's commit fails: by 1 it
/// would come to sub 1.
#[test]
fn a_run_by_hand() {
    let mut words = made(strided(2, queue(3, 1, 2, 4)));
    for worker in [0, 3] {
        begin_put(&mut words, worker, 20 + worker);
        step(&mut words, worker);
        step(&mut words, worker);
    }
    assert_eq!(finish(&mut words, 0), (put_answer(20, 0, 1, 1), 1));
    assert_eq!(finish(&mut words, 3), (put_answer(23, 2, 1, 2), 4));
}

#[test]
fn limits_in_make() {
    for settings in every_width() {
        for stride in strides() {
            let mut words = vec![7; settings.needed_words()];
            let number = make(&mut words, strided(stride, settings)).number;
            if stride < settings.width {
                let mut expected = made(settings);
                expected[layout::STRIDE] = stride;
                assert_eq!((number, words), (MOVING, expected), "{stride}");
            } else {
                let unchanged = vec![7; settings.needed_words()];
                assert_eq!((number, words), (OFF_LIMITS, unchanged), "{stride}");
            }
        }
    }
}

#[test]
fn limits_of_word_10() {
    let number = |words: &[u32]| begin_put(&mut words.to_vec(), 0, 1).number;
    for settings in every_width() {
        let mut words = made(settings);
        let short = words.len() - 1;
        for stride in strides() {
            words[layout::STRIDE] = stride;
            words[layout::EDITION] = CURRENT_EDITION;
            let fits = stride < settings.width;
            let or_unfit = |number| if fits { number } else { UNFIT };
            assert_eq!(number(&words), or_unfit(MOVING), "{stride}");
            assert_eq!(number(&words[..short]), or_unfit(TOO_SHORT), "{stride}");
            assert_eq!(number(&words[..12]), or_unfit(TOO_SHORT), "{stride}");
            assert_eq!(number(&words[..11]), TOO_SHORT, "{stride}");
            words[layout::EDITION] = 0;
            assert_eq!(number(&words), UNFIT, "{stride}");
            assert_eq!(number(&words[..12]), UNFIT, "{stride}");
        }
    }
}

#[test]
fn a_commit_that_failed_hops() {
    for settings in every_stride() {
        let at = settings.workers_at();
        for side in [Side::Put, Side::Take] {
            for index in 0..settings.width {
                let mut words = made(settings);
                set_phase(&mut words, 0, side.phase(Stage::Commit));
                words[at + layout::INDEX] = index;
                words[at + layout::SEEN] = 1;
                let mut expected = words.clone();
                expected[layout::STEPS_COUNTED] = 1;
                expected[at + layout::PHASE] = side.phase(Stage::Window);
                let hopped = index + settings.stride.max(1);
                expected[at + layout::INDEX] = hopped % settings.width;
                expected[at + layout::FAILED_COMMITS] = 1;
                assert_eq!(step(&mut words, 0), Answer::of(MOVING));
                assert_eq!(words, expected, "{settings:?}, {side:?}");
            }
        }
    }
}

/// A call that is not refused, with any worker; of an idle one any begin.
fn any_call(numbers: &mut Numbers, words: &[u32]) -> (fn(&mut [u32], u32) -> Answer, u32) {
    let [begin_put, begin_take, step] = CALLS;
    let worker = numbers.below(words[layout::WORKERS] as usize) as u32;
    let call = match is_idle(words, worker) {
        true => [begin_put, begin_take][numbers.below(2)],
        false => step,
    };
    (call, worker)
}

/// In random runs, each call on the same words with stride 0 does the same, but
/// for the hop of a commit that failed.
#[test]
fn nothing_else_goes_by_it() {
    let mut hops = 0;
    for settings in every_stride() {
        let mut numbers = Numbers(1);
        let mut words = made(settings);
        for _ in 0..1_000 {
            let (call, worker) = any_call(&mut numbers, &words);
            let at = settings.workers_at() + layout::WORKER_WORDS * worker as usize;
            let is_commit = matches!(decode(words[at]), Some((_, Stage::Commit)));
            let mut by_one = words.clone();
            by_one[layout::STRIDE] = 0;
            let answer = call(&mut words, worker);
            assert_eq!(call(&mut by_one, worker), answer);
            by_one[layout::STRIDE] = settings.stride;
            if is_commit && answer.number == MOVING {
                hops += u32::from(settings.stride > 1);
                let hopped = by_one[at + layout::INDEX] + settings.stride.max(1) - 1;
                by_one[at + layout::INDEX] = hopped % settings.width;
            }
            assert_eq!(words, by_one, "{settings:?}");
        }
    }
    assert!(hops > 1_000, "{hops}");
}

#[test]
fn a_stride_of_0_stands_for_1() {
    for settings in every_width().filter(|settings| settings.width > 1) {
        let mut numbers = Numbers(2);
        let mut by_0 = made(settings);
        let mut by_1 = made(strided(1, settings));
        for _ in 0..4_000 {
            let (call, worker) = any_call(&mut numbers, &by_0);
            assert_eq!(call(&mut by_0, worker), call(&mut by_1, worker));
            assert_eq!((by_0[layout::STRIDE], by_1[layout::STRIDE]), (0, 1));
            by_1[layout::STRIDE] = 0;
            assert_eq!(by_0, by_1, "{settings:?}");
            by_1[layout::STRIDE] = 1;
        }
    }
}
