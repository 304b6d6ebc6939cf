//! What is fit in edition 2: each of K8's sentences, with a word that just breaks it
//! and the nearest that does not.

mod common;

use common::sizes::{fitness, is_fit, live, made_2, set_live, set_sub, set_worker};
use common::sizes::{size_word, Pair, TWO};
use common::{queue, stack};
use second::phase::{is_of_kind, is_past_window};
use second::{layout, Settings, NO_WORKER, QUEUE, TOO_SHORT, UNFIT};

const TOP: u32 = u32::MAX;

/// w 3, d 2, R 9, three workers: three live windows above row 8, and one more row than
/// R below the highest.
fn three_windows() -> Vec<u32> {
    let mut words = made_2(queue(3, 2, 9, 3));
    set_live(&mut words, 10, &[(3, 2), (1, 4), (2, 1)]);
    assert_eq!(words[layout::PUT_WINDOW], 15);
    assert!(is_fit(&words));
    words
}

/// Whether the words are fit with these in their places after the cells.
fn fit_with(words: &[u32], set: &[(usize, u32)]) -> bool {
    let mut words = words.to_vec();
    for (which, word) in set {
        let at = size_word(&words, *which);
        words[at] = *word;
    }
    is_fit(&words)
}

#[test]
fn a_set_word_of_0_or_1() {
    let words = three_windows();
    for (set, fits) in [(0, true), (1, true), (2, false), (TOP, false)] {
        assert_eq!(fit_with(&words, &[(layout::SIZE_SET, set)]), fits);
    }
    // "Set word 0 with a next size that isn't the pool's is fit."
    let next = [(layout::NEXT_WIDTH, 1), (layout::NEXT_DEPTH, 3)];
    assert!(fit_with(&words, &next));
}

#[test]
fn one_to_16_live_windows() {
    let settings = queue(2, 1, 2, 1);
    for live in 0..=18_u32 {
        let mut words = made_2(settings);
        let within = live.min(16) as usize;
        set_live(&mut words, 5, &vec![(2, 1); within.max(1)]);
        let at = size_word(&words, layout::LIVE);
        words[at] = live;
        if live == 17 {
            // Were there a seventeenth, it would lead up to P.
            words[layout::PUT_WINDOW] += 1;
        }
        assert_eq!(is_fit(&words), (1..=16).contains(&live), "{live}");
    }
    let mut words = made_2(settings);
    let at = size_word(&words, layout::LIVE);
    words[at] = TOP;
    assert!(!is_fit(&words));
}

/// Width 1 to w, depth 1 to 64 and at most half of R.
fn sizes_about_the_limits(settings: Settings) -> Vec<(Pair, bool)> {
    let half = settings.rows / 2;
    let widths = [0, 1, settings.width, settings.width + 1, TOP];
    let depths = [0, 1, 64, 65, half, half + 1, TOP];
    let mut all = Vec::new();
    for width in widths {
        for depth in depths {
            let fits =
                (1..=settings.width).contains(&width) && (1..=64).contains(&depth) && depth <= half;
            all.push(((width, depth), fits));
        }
    }
    all
}

#[test]
fn next_sizes_within_limits() {
    for settings in [queue(3, 2, 9, 1), queue(16, 1, 256, 1), queue(1, 1, 128, 1)] {
        let words = made_2(settings);
        for ((width, depth), fits) in sizes_about_the_limits(settings) {
            let set = [(layout::NEXT_WIDTH, width), (layout::NEXT_DEPTH, depth)];
            assert_eq!(
                fit_with(&words, &set),
                fits,
                "{settings:?}, {width}, {depth}"
            );
        }
    }
}

/// The first, one between and the last; all else is as they lead up to P.
#[test]
fn live_sizes_within_limits() {
    for settings in [queue(3, 2, 9, 1), queue(4, 64, 129, 1), queue(2, 1, 130, 1)] {
        for k in 0..3 {
            for ((width, depth), fits) in sizes_about_the_limits(settings) {
                let mut words = made_2(settings);
                let mut sizes = [(settings.width, settings.depth); 3];
                sizes[k] = (width, depth);
                if sizes.iter().any(|(_, depth)| *depth == TOP) {
                    continue;
                }
                set_live(&mut words, 1_000, &sizes);
                assert_eq!(is_fit(&words), fits, "{settings:?}, {k}: {width}, {depth}");
            }
        }
    }
}

#[test]
fn zero_beyond_the_live_ones() {
    let words = three_windows();
    for which in layout::SIZES + 3 * layout::SIZE_WORDS..TWO.size_words() {
        for word in [1, 2, TOP] {
            assert!(!fit_with(&words, &[(which, word)]), "{which}");
        }
    }
}

#[test]
fn from_t_they_lead_up_to_p() {
    for (which, by) in [
        (layout::PUT_WINDOW, 1),
        (layout::PUT_WINDOW, TOP),
        (layout::TAKE_WINDOW, 1),
        (layout::TAKE_WINDOW, TOP),
    ] {
        let mut words = three_windows();
        words[which] = words[which].wrapping_add(by);
        assert!(!is_fit(&words), "{which} by {by}");
    }
    // One fewer, or one with another depth, does not lead up to it any more.
    let words = three_windows();
    let last = layout::SIZES + 2 * layout::SIZE_WORDS;
    let fewer = [(layout::LIVE, 2), (last, 0), (last + 1, 0)];
    assert!(!fit_with(&words, &fewer));
    assert!(!fit_with(&words, &[(last + layout::SIZE_DEPTH, 2)]));
    // T alone bears on the first: its depth leads nowhere.
    assert!(fit_with(&words, &[(layout::SIZES + layout::SIZE_DEPTH, 3)]));
}

/// "As whole numbers, not modulo 2^32."
#[test]
fn they_do_not_lead_past_2_to_the_32() {
    for (take_top, fits) in [(TOP - 5, true), (TOP - 4, false), (TOP, false)] {
        let mut words = three_windows();
        set_live(&mut words, take_top, &[(3, 2), (1, 4), (2, 1)]);
        assert_eq!(is_fit(&words), fits, "{take_top}");
    }
    let mut words = three_windows();
    set_live(&mut words, TOP, &[(3, 2)]);
    assert!(is_fit(&words));
}

#[test]
fn no_bottom_below_0() {
    for (depth, take_top, fits) in [(2, 2, true), (2, 1, false), (4, 4, true), (4, 3, false)] {
        let mut words = made_2(queue(3, 2, 9, 1));
        set_live(&mut words, take_top, &[(3, depth), (1, 2)]);
        assert_eq!(is_fit(&words), fits, "{depth}, {take_top}");
    }
    let mut words = made_2(queue(1, 1, 2, 1));
    set_live(&mut words, 0, &[(1, 1)]);
    assert!(!is_fit(&words));
}

#[test]
fn a_subs_last_rows() {
    // The take window's bottom is row 8, R is 9.
    let by_hand = [
        ([0, 0], true),
        ([3, 3], true),
        ([20, 20], true),
        ([TOP, TOP], true),
        // Above row 8 by 1 to R, the last taken row below it.
        ([8, 3], false),
        ([9, 3], true),
        ([17, 3], true),
        ([18, 3], false),
        ([8, 7], false),
        ([9, 8], true),
        ([17, 8], true),
        ([18, 8], false),
        // Above the last taken row.
        ([10, 9], true),
        ([18, 9], true),
        ([19, 9], false),
        ([29, 20], true),
        ([30, 20], false),
        // Below it.
        ([0, 1], false),
        ([9, 10], false),
        ([TOP - 1, TOP], false),
        ([TOP, TOP - 1], true),
        ([TOP, TOP - 9], true),
        ([TOP, TOP - 10], false),
        ([0, TOP], false),
    ];
    for (rows, fits) in by_hand {
        for j in 0..3 {
            let mut words = three_windows();
            set_sub(&mut words, j, rows);
            assert_eq!(is_fit(&words), fits, "{rows:?}");
        }
    }
}

/// A bottom near 2^32: the sum of it and R is a plain number.
#[test]
fn a_subs_last_rows_near_the_top() {
    let mut words = made_2(queue(1, 2, 9, 1));
    set_live(&mut words, TOP, &[(1, 2)]);
    for (rows, fits) in [
        ([TOP - 1, 0], true),
        ([TOP, 0], true),
        ([TOP - 2, 0], false),
        ([6, 0], false),
        ([6, 6], true),
    ] {
        set_sub(&mut words, 0, rows);
        assert_eq!(is_fit(&words), fits, "{rows:?}");
    }
}

#[test]
fn a_queues_worker() {
    // Index, scan and seen width, of w 3.
    let settings = queue(3, 2, 9, 3);
    for phase in (0..15).filter(|phase| is_of_kind(QUEUE, *phase)) {
        for index in 0..5 {
            for scan in 0..5 {
                for seen_width in [0, 1, 2, 3, 4, TOP] {
                    for seen_bottom in [0, 1, TOP] {
                        let mut words = made_2(settings);
                        let set = [
                            (layout::PHASE, phase),
                            (layout::INDEX, index),
                            (layout::SCAN, scan),
                            (layout::SEEN_BOTTOM, seen_bottom),
                            (layout::SEEN_WIDTH, seen_width),
                        ];
                        set_worker(&mut words, 1, &set);
                        let fits = if is_past_window(phase) {
                            seen_width <= 3 && index < seen_width && scan < seen_width
                        } else {
                            index < 3 && scan < 3
                        };
                        assert_eq!(is_fit(&words), fits, "{set:?}");
                    }
                }
            }
        }
    }
    assert!(!is_past_window(0) && !is_past_window(1) && !is_past_window(9));
}

#[test]
fn a_stack_has_zeros() {
    let settings = stack(2, 2, 1, 5, 2);
    let words = made_2(settings);
    assert!(is_fit(&words));
    for which in 0..TWO.size_words() {
        for word in [1, 2, TOP] {
            assert!(!fit_with(&words, &[(which, word)]), "{which}");
        }
    }
    for phase in (0..15).filter(|phase| is_of_kind(settings.kind, *phase)) {
        for which in [layout::SEEN_BOTTOM, layout::SEEN_WIDTH] {
            for (word, fits) in [(0, true), (1, false), (2, false), (TOP, false)] {
                let mut words = words.clone();
                set_worker(&mut words, 1, &[(layout::PHASE, phase), (which, word)]);
                assert_eq!(is_fit(&words), fits, "{phase}, {which}");
            }
        }
    }
}

/// 21 for 12 words, 23 for the settings and the edition, 21 for the needed words, 23
/// for the rest.
#[test]
fn the_order_of_the_refusals() {
    let mut words = three_windows();
    let needed = words.len();
    let at = size_word(&words, layout::SIZE_SET);
    for unfit in [false, true] {
        words[at] = if unfit { 2 } else { 1 };
        for edition in [0, 1, 2, 3, 7, TOP] {
            words[layout::EDITION] = edition;
            for len in 0..=needed {
                let expected = match len {
                    0..=11 => TOO_SHORT,
                    _ if edition != 2 => UNFIT,
                    _ if len < needed => TOO_SHORT,
                    _ if unfit => UNFIT,
                    _ => NO_WORKER,
                };
                assert_eq!(fitness(&words[..len]), expected, "{edition}, {len} words");
            }
        }
    }
    words[layout::EDITION] = 2;
    assert_eq!(live(&words), [(3, 2), (1, 4), (2, 1)]);
}
