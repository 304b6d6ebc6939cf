//! The call that sets a size (K8): what it changes, its refusals in their order, and the
//! run file's kind 8 word.

mod common;

use common::run_file::{bytes, EXAMPLE};
use common::sizes::{begin_put, finish, live, made_2, put, set_size, size_word, take, TWO};
use common::{put_answer, queue, stack};
use second::{in_edition, layout, Answer, Edition, Size};
use second::{MOVING, NO_SUCH_SIZE, STEP_LIMIT, TOO_SHORT, UNFIT};

const TOP: u32 = u32::MAX;

#[test]
fn it_sets_three_words_alone() {
    let settings = queue(3, 2, 9, 2);
    for steps in [0, STEP_LIMIT, TOP] {
        let mut words = made_2(settings);
        words[layout::STEPS_COUNTED] = steps;
        begin_put(&mut words, 1, 5);
        for pair in [(1, 4), (3, 1), (3, 2)] {
            let mut expected = words.clone();
            let at = size_word(&words, layout::NEXT_WIDTH);
            expected[at..at + 3].copy_from_slice(&[pair.0, pair.1, 1]);
            assert_eq!(set_size(&mut words, pair), MOVING);
            assert_eq!(words, expected);
        }
    }
}

#[test]
fn sizes_off_limits() {
    for settings in [
        queue(3, 2, 9, 2),
        queue(16, 64, 256, 1),
        queue(2, 1, 128, 1),
    ] {
        let half = settings.rows / 2;
        for width in [0, 1, settings.width, settings.width + 1, TOP] {
            for depth in [0, 1, half, half + 1, 64, 65, TOP] {
                let mut words = made_2(settings);
                let before = words.clone();
                let fits =
                    (1..=settings.width).contains(&width) && (1..=half.min(64)).contains(&depth);
                let number = if fits { MOVING } else { NO_SUCH_SIZE };
                assert_eq!(set_size(&mut words, (width, depth)), number);
                assert_eq!(words == before, !fits, "{settings:?}, {width}, {depth}");
            }
        }
    }
    let mut words = made_2(stack(3, 2, 2, 9, 2));
    let before = words.clone();
    for pair in [(1, 1), (3, 2), (0, 0)] {
        assert_eq!(set_size(&mut words, pair), NO_SUCH_SIZE);
        assert_eq!(words, before);
    }
}

/// Fitness's refusals, and then 32.
#[test]
fn the_order_of_its_refusals() {
    for (settings, pair) in [
        (queue(2, 1, 4, 2), (2, 1)),
        (queue(2, 1, 4, 2), (3, 1)),
        (stack(2, 1, 1, 4, 2), (2, 1)),
    ] {
        let last = if pair == (2, 1) && settings.kind == second::QUEUE {
            MOVING
        } else {
            NO_SUCH_SIZE
        };
        let mut words = made_2(settings);
        assert_eq!(set_size(&mut words, pair), last);
        words[settings.workers_at() + layout::INDEX] = 2;
        let needed = words.len();
        let numbers = |words: &mut [u32]| {
            let before = words.to_vec();
            let number = set_size(words, pair);
            assert_eq!(words, before);
            number
        };
        assert_eq!(numbers(&mut words), UNFIT);
        assert_eq!(numbers(&mut words[..needed - 1]), TOO_SHORT);
        for edition in [0, 1, 3, 7, TOP] {
            words[layout::EDITION] = edition;
            assert_eq!(numbers(&mut words), UNFIT);
            assert_eq!(numbers(&mut words[..12]), UNFIT);
            assert_eq!(numbers(&mut words[..11]), TOO_SHORT);
        }
    }
    for edition in [Edition::Zero, Edition::One] {
        let mut words = common::made_in(edition, queue(2, 1, 4, 2));
        assert_eq!(set_size(&mut words, (2, 1)), UNFIT);
    }
}

/// "From the next one on": the window that there is keeps its size, and so does one that
/// was added before the call.
#[test]
fn from_the_next_window_on() {
    let mut words = made_2(queue(2, 1, 8, 1));
    set_size(&mut words, (1, 3));
    assert_eq!(live(&words), [(2, 1)]);
    for _ in 0..3 {
        put(&mut words, 0, 5);
    }
    assert_eq!(live(&words), [(2, 1), (1, 3)]);
    set_size(&mut words, (2, 2));
    set_size(&mut words, (2, 4));
    assert_eq!(live(&words), [(2, 1), (1, 3)]);
    for _ in 0..3 {
        put(&mut words, 0, 5);
    }
    assert_eq!(live(&words), [(2, 1), (1, 3), (2, 4)]);
    assert_eq!(words[layout::PUT_WINDOW], 8);
    assert_eq!(take(&mut words, 0).stamp, 1);
}

fn listing(edition: Edition, words: &[u32]) -> String {
    let mut output = Vec::new();
    in_edition::list(edition, &bytes(words)[..], &mut output).expect("memory");
    String::from_utf8(output).expect("digits and words")
}

fn size_word_of_file(width: u32, depth: u32) -> u32 {
    8 << 28 | depth << 5 | width
}

/// Among the example's words, anywhere after the second.
#[test]
fn a_kind_8_word() {
    for position in 2..EXAMPLE.len() {
        for (width, depth, refused) in [(1, 1, false), (1, 2, true), (2, 1, true), (0, 1, true)] {
            let mut words = EXAMPLE.to_vec();
            words.insert(position, size_word_of_file(width, depth));
            let line = format!("{position} 32 0 0 0 0 0 0\n");
            let mut lines: Vec<(usize, String)> = vec![
                (
                    5,
                    format!("{} 1 0 7 0 1 1 0\n", 5 + usize::from(position <= 5)),
                ),
                (
                    9,
                    format!("{} 2 0 7 0 1 1 0\n", 9 + usize::from(position <= 9)),
                ),
            ];
            if refused {
                lines.insert(
                    lines.iter().filter(|(at, _)| *at < position).count(),
                    (0, line),
                );
            }
            let mut expected: String = lines.into_iter().map(|(_, line)| line).collect();
            expected.push_str("held 0 worst 0\n");
            assert_eq!(listing(TWO, &words), expected, "{position}");
            // Before edition 2 there is no such kind.
            let all = listing(Edition::One, &words);
            assert!(
                all.ends_with(&format!("{position} 29 0 0 0 0 0 0\n")),
                "{all}"
            );
        }
    }
}

#[test]
fn a_kind_8_word_out_of_place_or_with_a_spare_bit() {
    for position in 0..2 {
        let mut words = EXAMPLE;
        words[position] = size_word_of_file(1, 1);
        assert_eq!(listing(TWO, &words), format!("{position} 29 0 0 0 0 0 0\n"));
    }
    for bit in 12..28 {
        let mut words = EXAMPLE.to_vec();
        words.insert(2, size_word_of_file(1, 1) | 1 << bit);
        assert_eq!(listing(TWO, &words), "2 29 0 0 0 0 0 0\n", "bit {bit}");
    }
    // Every width and depth that its bits can have.
    for width in 0..32 {
        for depth in 0..128 {
            let header = [0x10001030, 0x20000900];
            let fits = (1..=16).contains(&width) && (1..=64).contains(&depth);
            let words = [
                header[0],
                header[1],
                size_word_of_file(width, depth),
                6 << 28,
            ];
            let line = if fits { "" } else { "2 32 0 0 0 0 0 0\n" };
            let expected = format!("{line}held 0 worst 0\n");
            assert_eq!(listing(TWO, &words), expected, "{width}, {depth}");
        }
    }
}

/// A stack's is refused, and so is one of a size off limits for the pool.
#[test]
fn refused_sizes_are_listed_with_worker_0() {
    let words = [0x10081021, 0x20000802, size_word_of_file(1, 1), 6 << 28];
    assert_eq!(listing(TWO, &words), "2 32 0 0 0 0 0 0\nheld 0 worst 0\n");
}

/// The summary counts a refused one, and its bound is the greatest that a window can
/// have.
#[test]
fn summaries() {
    let summary = |words: &[u32]| {
        let mut output = Vec::new();
        in_edition::summarize(TWO, &bytes(words)[..], &mut output).expect("memory");
        String::from_utf8(output).expect("digits and words")
    };
    // Queue w 2, d 1, R 8, n 1.
    let header = [0x10001022, 0x20000808];
    for (sizes, refused, bound) in [
        (&[][..], 0, 1),
        (&[(1, 3)], 0, 1),
        (&[(2, 3), (1, 4)], 0, 3),
        (&[(3, 1), (2, 5), (2, 2)], 2, 2),
    ] {
        let mut words = header.to_vec();
        words.extend(sizes.iter().map(|(w, d)| size_word_of_file(*w, *d)));
        words.push(6 << 28);
        let expected = format!(
            "whole\nwords {}\nput 0 taken 0 empty 0 full 0 refused {refused}\nheld 0\n\
             worst 0 bound {bound}\nlost 0\nsteps 0 of 4000000000\n",
            words.len()
        );
        assert_eq!(summary(&words), expected);
    }
}

/// In the type of the other calls.
#[test]
fn it_answers_0_with_no_fields() {
    let mut words = made_2(queue(2, 1, 4, 1));
    let size = Size { width: 1, depth: 2 };
    assert_eq!(second::set_size(&mut words, size), Answer::of(MOVING));
    begin_put(&mut words, 0, 3);
    assert_eq!(finish(&mut words, 0), (put_answer(3, 0, 1, 1), 3));
}
