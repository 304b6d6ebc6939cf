//! Make: its words, its limits, its refusals, in edition 1. What edition 2 has more,
//! or allows, is in size_words.rs.

mod common;

use common::{queue, stack, strided};
use second::{in_edition, Answer, Edition, Settings, MOVING, OFF_LIMITS, TOO_SHORT};

const JUNK: u32 = 0x5eed_5eed;

fn make(words: &mut [u32], settings: Settings) -> Answer {
    in_edition::make(Edition::One, words, settings)
}

#[test]
fn every_needed_word_and_none_beyond() {
    // w 2, d 2, R 4, n 3: 12 + 4 + 27 + 16 words.
    let of_queue = [0, 2, 2, 2, 4, 3, 0, 0, 2, 2, 0, 1];
    let of_stack = [1, 2, 2, 1, 4, 3, 0, 0, 2, 0, 1, 1];
    for (settings, header) in [
        (queue(2, 2, 4, 3), of_queue),
        (strided(1, stack(2, 2, 1, 4, 3)), of_stack),
    ] {
        let mut expected = vec![0; 59];
        expected[..12].copy_from_slice(&header);
        // Worker i has index i mod w: of three, only worker 1 has index 1.
        expected[12 + 4 + 9 + 2] = 1;
        expected.extend([JUNK; 5]);
        let mut words = vec![JUNK; 64];
        assert_eq!(make(&mut words, settings), Answer::of(MOVING));
        assert_eq!(words, expected);
    }
}

#[test]
fn limits() {
    let within = [
        queue(1, 1, 2, 1),
        queue(16, 64, 256, 32),
        queue(4, 64, 1024, 32),
        stack(1, 64, 1, 128, 1),
        stack(16, 64, 64, 255, 32),
        strided(15, queue(16, 64, 256, 32)),
    ];
    let off = [
        Settings {
            kind: 2,
            ..stack(1, 1, 1, 2, 1)
        },
        queue(0, 1, 2, 1),
        queue(17, 1, 2, 1),
        queue(1, 0, 2, 1),
        queue(1, 65, 130, 1),
        stack(1, 2, 0, 4, 1),
        stack(1, 2, 3, 4, 1),
        Settings {
            shift: 1,
            ..queue(1, 2, 4, 1)
        },
        queue(1, 2, 2, 1),
        stack(1, 2, 2, 3, 1),
        queue(1, 2, 5, 1),
        queue(1, 1, 1025, 1),
        queue(1, 1, 2, 0),
        queue(1, 1, 2, 33),
        stack(5, 1, 1, 820, 1),
        strided(1, queue(1, 1, 2, 1)),
        strided(16, stack(16, 1, 1, 2, 1)),
        queue(1 << 16, 1, 1 << 16, 1),
        stack(u32::MAX, u32::MAX, u32::MAX, u32::MAX, u32::MAX),
    ];
    for settings in within {
        assert_eq!(number(settings, 9000), MOVING, "{settings:?}");
    }
    for settings in off {
        // 22 stands before 21.
        assert_eq!(number(settings, 9000), OFF_LIMITS, "{settings:?}");
        assert_eq!(number(settings, 0), OFF_LIMITS, "{settings:?}");
    }
}

#[test]
fn the_largest_pool() {
    for settings in [queue(16, 64, 256, 32), stack(16, 64, 64, 256, 32)] {
        assert_eq!(settings.needed_words_in(Edition::One), 8524);
        assert_eq!(number(settings, 8524), MOVING);
        assert_eq!(number(settings, 8523), TOO_SHORT);
    }
}

#[test]
fn too_few_words() {
    for settings in [queue(1, 1, 2, 1), stack(16, 64, 64, 256, 32)] {
        for len in [0, 11, 12, settings.needed_words_in(Edition::One) - 1] {
            assert_eq!(number(settings, len), TOO_SHORT);
        }
    }
}

/// The number that make answers; a refusal changes nothing.
fn number(settings: Settings, len: usize) -> u32 {
    let mut words = vec![JUNK; len];
    let answer = make(&mut words, settings);
    assert_eq!(answer, Answer::of(answer.number));
    if answer.is_refusal() {
        assert_eq!(words, vec![JUNK; len]);
    }
    answer.number
}
