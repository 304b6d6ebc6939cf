//! Edition 2's words (K8): how many, and those that make sets.

mod common;

use common::sizes::{made_2, TWO};
use common::{queue, stack, strided};
use second::{in_edition, Answer, Edition, Settings, MOVING, OFF_LIMITS, TOO_SHORT};

const JUNK: u32 = 0x5eed_5eed;

fn make(words: &mut [u32], settings: Settings) -> Answer {
    in_edition::make(TWO, words, settings)
}

#[test]
fn the_first_run_by_hand() {
    for settings in [queue(2, 1, 4, 2), queue(2, 2, 4, 2), stack(2, 2, 1, 4, 2)] {
        assert_eq!(settings.needed_words_in(TWO), 90);
        let mut words = vec![JUNK; 91];
        assert_eq!(make(&mut words[..89], settings), Answer::of(TOO_SHORT));
        assert_eq!(words, [JUNK; 91]);
        assert_eq!(make(&mut words[..90], settings), Answer::of(MOVING));
        assert_eq!(words[90], JUNK);
    }
}

#[test]
fn eleven_words_for_each_worker_and_36_after_the_cells() {
    for (w, n) in (1..=16).flat_map(|w| (1..=32).map(move |n| (w, n))) {
        for rows in [2, 3, 256] {
            for settings in [queue(w, 1, rows, n), stack(w, 1, 1, rows, n)] {
                let needed = (48 + 2 * w + 11 * n + 2 * w * rows) as usize;
                assert_eq!(settings.needed_words_in(TWO), needed);
                let mut words = vec![0; needed];
                assert_eq!(make(&mut words[..needed - 1], settings).number, TOO_SHORT);
                assert_eq!(make(&mut words, settings).number, MOVING);
            }
        }
    }
    assert_eq!(queue(16, 64, 256, 32).needed_words_in(TWO), 8624);
}

#[test]
fn every_needed_word_and_none_beyond() {
    // w 2, d 2, R 5, n 3: 12 + 4 + 33 + 20 + 36 words.
    let of_queue = [0, 2, 2, 2, 5, 3, 0, 0, 2, 2, 0, 2];
    let of_stack = [1, 2, 2, 1, 5, 3, 0, 0, 2, 0, 1, 2];
    for (settings, header, sizes) in [
        // Next width and depth, no size set, one live window of the pool's size.
        (queue(2, 2, 5, 3), of_queue, [2, 2, 0, 1, 2, 2]),
        (strided(1, stack(2, 2, 1, 5, 3)), of_stack, [0; 6]),
    ] {
        let mut expected = vec![0; 105];
        expected[..12].copy_from_slice(&header);
        // Worker i has index i mod w: of three, only worker 1 has index 1.
        expected[12 + 4 + 11 + 2] = 1;
        expected[69..75].copy_from_slice(&sizes);
        expected.extend([JUNK; 5]);
        let mut words = vec![JUNK; 110];
        assert_eq!(make(&mut words, settings), Answer::of(MOVING));
        assert_eq!(words, expected);
    }
}

/// "R need no longer be a multiple of d"; the other limits stay, and 22 stands before 21.
#[test]
fn rows_that_are_no_multiple_of_the_depth() {
    for settings in [
        queue(1, 2, 5, 1),
        queue(3, 64, 129, 2),
        queue(1, 3, 1024, 1),
    ] {
        assert!(!settings.within_limits_in(Edition::One));
        made_2(settings);
        let answer = make(&mut [0; 11], settings);
        assert_eq!(answer, Answer::of(TOO_SHORT));
    }
    for settings in [
        queue(1, 2, 3, 1),
        queue(1, 3, 1025, 1),
        queue(17, 1, 2, 1),
        Settings {
            shift: 1,
            ..queue(1, 2, 5, 1)
        },
        strided(2, queue(2, 2, 5, 1)),
    ] {
        for len in [0, 9_000] {
            let answer = make(&mut vec![0; len], settings);
            assert_eq!(answer, Answer::of(OFF_LIMITS), "{settings:?}");
        }
    }
}
