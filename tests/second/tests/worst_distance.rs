//! The figures for the distance of a take, at settings worked out by hand and
//! beside each other over all settings that bear on them; and a run by hand to
//! the exact one. The cross-check has such a run for other settings.

mod common;

use common::passed::{small_stack, stack_at_the_bound};
use common::{finish, made, put, queue, stack, take, taken_answer};
use second::{closer_distance_bound, distance_bound, framework_figure, thesis_figure};
use second::{worst_distance, Settings};

/// Demand 3's, K14's, source 001's, source 003's and the exact one.
fn figures(settings: &Settings) -> [u32; 5] {
    [
        distance_bound(settings),
        closer_distance_bound(settings),
        framework_figure(settings),
        thesis_figure(settings),
        worst_distance(settings),
    ]
}

#[test]
fn figures_by_hand() {
    let by_hand = [
        // 003's has the row 2 + 4 + 0, and G goes 2, 4, 6.
        (stack(2, 2, 2, 6, 2), [8, 7, 6, 6, 6]),
        // G goes no further than 4.
        (stack(2, 2, 2, 5, 2), [8, 7, 6, 6, 4]),
        // G goes 1, 2, then also 3.
        (stack(2, 1, 1, 2, 2), [4, 3, 3, 3, 2]),
        (stack(2, 1, 1, 3, 2), [4, 3, 3, 3, 3]),
        // A shift below the depth: more than 001 says, in R 5 but not in R 4.
        (stack(2, 2, 1, 5, 2), [6, 5, 4, 5, 5]),
        (stack(2, 2, 1, 4, 2), [6, 5, 4, 5, 4]),
        // The shift does not divide d - 1: 6 + 8 + 4 rows are below K14's 19.
        (stack(3, 6, 4, 100, 2), [40, 38, 28, 36, 36]),
        (stack(16, 64, 1, 256, 2), [1950, 1935, 990, 1935, 1935]),
        (stack(1, 64, 1, 256, 2), [0; 5]),
        (queue(3, 4, 8, 2), [8; 5]),
    ];
    for (settings, expected) in by_hand {
        assert_eq!(figures(&settings), expected, "{settings:?}");
    }
}

/// Every depth and shift, and rows up to where more of them change nothing.
fn depths_shifts_and_rows() -> impl Iterator<Item = (u32, u32, u32)> {
    let depths_and_shifts = (1..=64).flat_map(|d| (1..=d).map(move |s| (d, s)));
    depths_and_shifts.flat_map(|(d, s)| (2 * d..=4 * d + 2).map(move |rows| (d, s, rows)))
}

#[test]
fn the_exact_figure_stands_below_the_bounds() {
    for (d, s, rows) in depths_shifts_and_rows() {
        for width in 1..=(4096 / rows).min(16) {
            let settings = stack(width, d, s, rows, 2);
            assert!(settings.within_limits(), "{settings:?}");
            let [demand_3, k14, framework, thesis, exact] = figures(&settings);
            assert!(exact <= thesis && thesis <= k14, "{settings:?}");
            assert!(k14 <= demand_3 && framework <= thesis, "{settings:?}");
            assert!((k14 == demand_3) == (width == 1), "{settings:?}");
        }
    }
}

#[test]
fn where_k14_is_exact() {
    for (d, s, rows) in depths_shifts_and_rows() {
        let settings = stack(2, d, s, rows, 2);
        let has_room = rows >= d + 2 * s + s * ((d - 1) / s);
        let exact = (d - 1) % s == 0 && has_room;
        let equal = worst_distance(&settings) == closer_distance_bound(&settings);
        assert_eq!(equal, exact, "{settings:?}");
    }
}

#[test]
fn more_rows_never_lower_it() {
    for (d, s, rows) in depths_shifts_and_rows() {
        let now = worst_distance(&stack(2, d, s, rows, 2));
        assert!(now <= worst_distance(&stack(2, d, s, rows + 1, 2)));
        // R is at least 2d, and G comes to within a shift of it.
        assert!(now > 2 * d - s, "d {d}, s {s}, R {rows}");
    }
}

/// Stack w 2, d 1, s 1, R 2, all values nonzero.
#[test]
fn a_run_to_the_worst_distance() {
    let mut words = stack_at_the_bound([7, 8], 5);
    assert_eq!(worst_distance(&small_stack()), 2);
    assert_eq!(finish(&mut words, 1), (taken_answer(5, 1, 1, 1, 2), 1));
}

/// With one worker nothing overlaps: in the same stack, in every list of 14
/// whole puts and takes, no take passes over anything.
#[test]
fn one_worker_does_not_come_to_it() {
    let settings = stack(2, 1, 1, 2, 1);
    assert_eq!(worst_distance(&settings), 2);
    assert_eq!(greatest_alone(&made(settings), 14), 0);
}

/// The greatest distance in all lists of so many operations that follow.
fn greatest_alone(words: &[u32], left: u32) -> u32 {
    if left == 0 {
        return 0;
    }
    let mut after_put = words.to_vec();
    put(&mut after_put, 0, left);
    let mut after_take = words.to_vec();
    let distance = take(&mut after_take, 0).0.distance;
    let later = [after_put, after_take].map(|words| greatest_alone(&words, left - 1));
    distance.max(later[0]).max(later[1])
}
