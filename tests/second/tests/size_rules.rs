//! A queue's rules where its windows have sizes of their own (K8), sentence by sentence,
//! on words set by hand; and a run by hand.

mod common;

use common::sizes::{begin, finish, is_fit, live, made_2, moves, set_live, set_sub, set_worker};
use common::sizes::{begin_put, begin_take, set_size, size_word, step, sub, worker_word, Pair};
use common::{put_answer, queue, set_phase, strided, taken_answer};
use second::phase::{Side, Stage};
use second::{layout, Answer, EMPTY, FULL, MOVING, PUT, TAKEN, UNFIT};

const TOP: u32 = u32::MAX;
const SIZES: [Pair; 3] = [(3, 2), (1, 4), (2, 1)];

/// w 3, d 2, R 9, three workers: the take window has rows 9 and 10 of three subs, then
/// come rows 11 to 14 of one, and the put window has row 15 of two.
fn three_windows() -> Vec<u32> {
    let mut words = made_2(queue(3, 2, 9, 3));
    set_live(&mut words, 10, &SIZES);
    words
}

/// Worker 0 in this stage, with these words.
fn at(words: &mut [u32], side: Side, stage: Stage, set: &[(usize, u32)]) {
    set_phase(words, 0, side.phase(stage));
    set_worker(words, 0, set);
    assert!(is_fit(words), "{words:?}");
}

/// The worker's words by name.
fn seen(words: &[u32]) -> [u32; 3] {
    [layout::SEEN_WINDOW, layout::SEEN_BOTTOM, layout::SEEN_WIDTH]
        .map(|which| worker_word(words, 0, which))
}

fn phase(words: &[u32]) -> u32 {
    worker_word(words, 0, layout::PHASE)
}

fn index(words: &[u32]) -> u32 {
    worker_word(words, 0, layout::INDEX)
}

#[test]
fn a_window_step_sees_top_bottom_and_width() {
    for (side, expected, width) in [(Side::Put, [15, 14, 2], 2), (Side::Take, [10, 8, 3], 3)] {
        for from in 0..3 {
            let mut words = three_windows();
            let junk = [
                (layout::SEEN_BOTTOM, 77),
                (layout::SEEN_WIDTH, 78),
                (layout::INDEX, from),
                (layout::EXTRA, 5),
                (layout::SCAN, 2),
                (layout::SEEN, 6),
                (layout::SUM, 7),
            ];
            at(&mut words, side, Stage::Window, &junk);
            moves(&mut words, 0, 1);
            assert_eq!(seen(&words), expected);
            // "A worker whose index lies beyond it starts at index mod that width."
            assert_eq!(index(&words), from % width);
            for which in [layout::EXTRA, layout::SCAN, layout::SEEN, layout::SUM] {
                assert_eq!(worker_word(&words, 0, which), 0);
            }
            assert_eq!(phase(&words), side.phase(Stage::Read));
        }
    }
}

#[test]
fn a_put_reads_the_last_put_row_as_it_is() {
    // Below the seen window's bottom, within it, and at its top.
    for (put, hits) in [(3, true), (14, true), (15, false), (16, false)] {
        let mut words = three_windows();
        set_sub(&mut words, 1, [put, put]);
        let set = [
            (layout::INDEX, 1),
            (layout::SEEN_WINDOW, 15),
            (layout::SEEN_BOTTOM, 14),
            (layout::SEEN_WIDTH, 2),
        ];
        at(&mut words, Side::Put, Stage::Read, &set);
        moves(&mut words, 0, 1);
        let stage = if hits { Stage::Commit } else { Stage::Read };
        assert_eq!(phase(&words), Side::Put.phase(stage), "{put}");
        assert_eq!(
            worker_word(&words, 0, layout::SEEN),
            if hits { put } else { 0 }
        );
        assert_eq!(worker_word(&words, 0, layout::SUM), 0);
        assert_eq!(seen(&words), [15, 14, 2]);
    }
}

/// Spent, bare and hit go by the rows as they are, and the sum by the higher of the last
/// put row and the seen bottom.
#[test]
fn a_take_reads_last_rows_and_sums_the_higher() {
    let by_hand = [
        // Last put and taken row, the sum, and whether it is spent, bare or a hit.
        ([10, 10], 10, "spent"),
        ([16, 11], 16, "spent"),
        ([3, 3], 8, "bare"),
        ([8, 8], 8, "bare"),
        ([9, 9], 9, "bare"),
        ([9, 3], 9, "hit"),
        ([14, 8], 14, "hit"),
        ([17, 9], 17, "hit"),
    ];
    for (rows, sum, what) in by_hand {
        let mut words = three_windows();
        set_sub(&mut words, 2, rows);
        let set = [
            (layout::INDEX, 2),
            (layout::SEEN_WINDOW, 10),
            (layout::SEEN_BOTTOM, 8),
            (layout::SUM, 100),
        ];
        at(&mut words, Side::Take, Stage::Read, &set);
        moves(&mut words, 0, 1);
        assert_eq!(worker_word(&words, 0, layout::SUM), 100 + sum, "{rows:?}");
        let bare = u32::from(what == "bare");
        assert_eq!(worker_word(&words, 0, layout::EXTRA), bare, "{rows:?}");
        let (stage, seen) = match what {
            "hit" => (Stage::Commit, rows[1]),
            _ => (Stage::Read, 0),
        };
        assert_eq!(phase(&words), Side::Take.phase(stage), "{rows:?}");
        assert_eq!(worker_word(&words, 0, layout::SEEN), seen);
        assert_eq!(index(&words), if what == "hit" { 2 } else { 0 });
    }
}

/// Also where a seen bottom is not below the seen window, as no run from make has it.
#[test]
fn a_read_does_not_go_by_the_seen_bottom() {
    for bottom in [10, 20, TOP] {
        for (side, rows) in [
            (Side::Put, [9, 9]),
            (Side::Take, [9, 8]),
            (Side::Take, [12, 9]),
        ] {
            let mut words = three_windows();
            set_sub(&mut words, 0, rows);
            let set = [(layout::SEEN_WINDOW, 10), (layout::SEEN_BOTTOM, bottom)];
            at(&mut words, side, Stage::Read, &set);
            moves(&mut words, 0, 1);
            assert_eq!(phase(&words), side.phase(Stage::Commit));
            let sum = match side {
                Side::Put => 0,
                Side::Take => rows[0].max(bottom),
            };
            assert_eq!(worker_word(&words, 0, layout::SUM), sum);
        }
    }
}

/// With a seen width of 2 in a pool of 3: from index 1 the next is 0, and two misses are
/// all.
#[test]
fn only_subs_within_the_seen_width_are_visited() {
    for side in [Side::Put, Side::Take] {
        let mut words = three_windows();
        for j in 0..3 {
            set_sub(&mut words, j, [20, 20]);
        }
        let set = [
            (layout::INDEX, 1),
            (layout::SEEN_WINDOW, 15),
            (layout::SEEN_BOTTOM, 14),
            (layout::SEEN_WIDTH, 2),
        ];
        at(&mut words, side, Stage::Read, &set);
        moves(&mut words, 0, 1);
        assert_eq!((index(&words), phase(&words)), (0, side.phase(Stage::Read)));
        moves(&mut words, 0, 1);
        assert_eq!(
            (index(&words), phase(&words)),
            (1, side.phase(Stage::Shift))
        );
        assert_eq!(worker_word(&words, 0, layout::SCAN), 0);
    }
}

#[test]
fn a_put_lands_above_the_higher_of_last_row_and_bottom() {
    for (put, bottom, row) in [(3, 14, 15), (14, 14, 15), (14, 3, 15), (15, 14, 16)] {
        let mut words = three_windows();
        set_sub(&mut words, 1, [put, put]);
        let set = [
            (layout::INDEX, 1),
            (layout::VALUE, 6),
            (layout::SEEN, put),
            (layout::SEEN_BOTTOM, bottom),
            (layout::SEEN_WIDTH, 2),
        ];
        at(&mut words, Side::Put, Stage::Commit, &set);
        assert_eq!(step(&mut words, 0), put_answer(6, 1, row, 1));
        assert_eq!(sub(&words, 1), [row, put]);
        let cell = second_cell(1, row);
        assert_eq!(words[cell..cell + 2], [6, 1]);
    }
}

/// Of `three_windows`: row r of sub j is cell j x R + (r - 1) mod R.
fn second_cell(j: u32, row: u32) -> usize {
    let settings = queue(3, 2, 9, 3);
    let cell = j * 9 + (row - 1) % 9;
    settings.cells_at_in(common::sizes::TWO) + layout::CELL_WORDS * cell as usize
}

#[test]
fn a_take_takes_the_row_above_the_higher() {
    for (taken, bottom, row) in [(3, 8, 9), (8, 8, 9), (9, 8, 10), (10, 8, 11), (3, 0, 4)] {
        let mut words = three_windows();
        set_sub(&mut words, 1, [12, taken]);
        let cell = second_cell(1, row);
        words[cell..cell + 2].copy_from_slice(&[6, 40]);
        let set = [
            (layout::INDEX, 1),
            (layout::SEEN, taken),
            (layout::SEEN_WINDOW, 10),
            (layout::SEEN_BOTTOM, bottom),
        ];
        at(&mut words, Side::Take, Stage::Commit, &set);
        // No held row has a stamp: only those with a value would count.
        assert_eq!(step(&mut words, 0), taken_answer(6, 1, row, 40, 0));
        assert_eq!(sub(&words, 1), [12, row]);
        assert_eq!(words[cell..cell + 2], [6, 40]);
    }
}

/// "The hop after a failed commit is mod the pool's w", and a restart keeps what was seen.
#[test]
fn a_failed_commit_hops_modulo_the_pools_width() {
    for side in [Side::Put, Side::Take] {
        for stride in 0..3 {
            let mut words = made_2(strided(stride, queue(3, 2, 9, 3)));
            set_live(&mut words, 10, &SIZES);
            let set = [
                (layout::INDEX, 1),
                (layout::SEEN, 1),
                (layout::SEEN_WINDOW, 15),
                (layout::SEEN_BOTTOM, 14),
                (layout::SEEN_WIDTH, 2),
            ];
            at(&mut words, side, Stage::Commit, &set);
            moves(&mut words, 0, 1);
            assert_eq!(index(&words), (1 + stride.max(1)) % 3);
            assert_eq!(phase(&words), side.phase(Stage::Window));
            assert_eq!(seen(&words), [15, 14, 2]);
            assert_eq!(worker_word(&words, 0, layout::FAILED_COMMITS), 1);
            assert!(is_fit(&words));
        }
    }
}

/// The take window's bottom is row 8, R is 9.
#[test]
fn no_free_cell() {
    for (rows, bottom, fits) in [
        // Above the bottom by R and by one more.
        ([16, 3], 0, true),
        ([17, 3], 0, false),
        ([3, 3], 16, true),
        ([3, 3], 17, false),
        // Above the last taken row.
        ([17, 9], 0, true),
        ([18, 9], 0, false),
        ([20, 20], 28, true),
        ([20, 20], 29, false),
        // At or below both: it does not pass.
        ([3, 3], 0, true),
        ([3, 3], 7, true),
        ([3, 3], TOP, false),
    ] {
        let mut words = three_windows();
        set_sub(&mut words, 0, rows);
        let set = [(layout::SEEN, rows[0]), (layout::SEEN_BOTTOM, bottom)];
        at(&mut words, Side::Put, Stage::Commit, &set);
        let before = words.clone();
        let number = step(&mut words, 0).number;
        assert_eq!(number, if fits { PUT } else { UNFIT }, "{rows:?}, {bottom}");
        assert_eq!(words == before, !fits);
    }
}

/// "And no item if it passes the last put row": also of a row that no live window holds
/// there is one.
#[test]
fn no_item() {
    for (rows, bottom, has) in [
        ([9, 8], 0, true),
        ([9, 9], 0, false),
        ([3, 3], 0, false),
        ([9, 3], 8, true),
        ([9, 3], 9, false),
        ([9, 3], 0, true),
        ([17, 9], 16, true),
        ([17, 9], 17, false),
        ([17, 9], TOP, false),
    ] {
        let mut words = three_windows();
        set_sub(&mut words, 0, rows);
        let set = [(layout::SEEN, rows[1]), (layout::SEEN_BOTTOM, bottom)];
        at(&mut words, Side::Take, Stage::Commit, &set);
        let before = words.clone();
        let number = step(&mut words, 0).number;
        assert_eq!(
            number,
            if has { TAKEN } else { UNFIT },
            "{rows:?}, {bottom}"
        );
        assert_eq!(words == before, !has);
    }
}

/// A put shift of `three_windows` with this next size.
fn put_shift(words: &mut [u32], next: Pair) -> Answer {
    let size = size_word(words, 0);
    words[size + layout::NEXT_WIDTH] = next.0;
    words[size + layout::NEXT_DEPTH] = next.1;
    let top = words[layout::PUT_WINDOW];
    at(
        words,
        Side::Put,
        Stage::Shift,
        &[(layout::SEEN_WINDOW, top)],
    );
    step(words, 0)
}

#[test]
fn a_put_shift_appends_the_next_size() {
    // From bottom 8 to a top of 17 at most.
    for (depth, shifts) in [(1, true), (2, true), (3, false), (4, false)] {
        let mut words = three_windows();
        let answer = put_shift(&mut words, (2, depth));
        if shifts {
            assert_eq!(answer, Answer::of(MOVING));
            assert_eq!(words[layout::PUT_WINDOW], 15 + depth);
            assert_eq!(live(&words), [(3, 2), (1, 4), (2, 1), (2, depth)]);
            assert_eq!(phase(&words), Side::Put.phase(Stage::Window));
        } else {
            assert_eq!(answer, Answer::of(FULL));
            assert_eq!(live(&words), SIZES);
            assert_eq!(words[layout::PUT_WINDOW], 15);
            assert_eq!((phase(&words), seen(&words)), (0, [0, 0, 0]));
        }
        assert_eq!(words[layout::TAKE_WINDOW], 10);
        assert!(is_fit(&words));
    }
}

#[test]
fn a_put_shift_needs_fewer_than_16_live_windows() {
    for number in 1..=16 {
        let mut words = made_2(queue(3, 1, 64, 3));
        set_live(&mut words, 5, &vec![(3, 1); number]);
        let answer = put_shift(&mut words, (1, 2));
        let mut expected = vec![(3, 1); number];
        if number < 16 {
            expected.push((1, 2));
            assert_eq!(answer, Answer::of(MOVING));
        } else {
            assert_eq!(answer, Answer::of(FULL));
        }
        assert_eq!(live(&words), expected);
        assert!(is_fit(&words));
    }
}

#[test]
fn a_take_shift_drops_the_first_pair() {
    let mut words = three_windows();
    for (top, left) in [(14, &SIZES[1..]), (15, &SIZES[2..])] {
        let seen = words[layout::TAKE_WINDOW];
        at(
            &mut words,
            Side::Take,
            Stage::Shift,
            &[(layout::SEEN_WINDOW, seen)],
        );
        moves(&mut words, 0, 1);
        assert_eq!(words[layout::TAKE_WINDOW], top);
        assert_eq!(words[layout::PUT_WINDOW], 15);
        assert_eq!(live(&words), left);
        assert_eq!(phase(&words), Side::Take.phase(Stage::Window));
        // Zero beyond, or it would not be fit.
        assert!(is_fit(&words));
    }
    at(
        &mut words,
        Side::Take,
        Stage::Shift,
        &[(layout::SEEN_WINDOW, 15)],
    );
    assert_eq!(step(&mut words, 0), Answer::of(EMPTY));
    assert_eq!(live(&words), SIZES[2..]);
}

/// "Isn't the seen one" compares the top alone.
#[test]
fn a_shift_goes_by_the_seen_top_alone() {
    for (side, top) in [(Side::Put, 15), (Side::Take, 10)] {
        for bottom in [0, 1, TOP] {
            for width in 1..=3 {
                let mut words = three_windows();
                let set = [
                    (layout::SEEN_BOTTOM, bottom),
                    (layout::SEEN_WIDTH, width),
                    (layout::SEEN_WINDOW, top),
                ];
                at(&mut words, side, Stage::Shift, &set);
                moves(&mut words, 0, 1);
                assert_ne!(live(&words), SIZES);
            }
        }
        let mut words = three_windows();
        at(
            &mut words,
            side,
            Stage::Shift,
            &[(layout::SEEN_WINDOW, top - 1)],
        );
        moves(&mut words, 0, 1);
        assert_eq!(live(&words), SIZES);
        assert_eq!(phase(&words), side.phase(Stage::Window));
    }
}

/// The last confirm of a take with one window of top 10, or more.
#[test]
fn empty_only_where_the_put_window_is_the_seen_one() {
    for (sizes, sum, answer) in [
        (&SIZES[..1], 9, EMPTY),
        (&SIZES[..1], 10, MOVING),
        (&SIZES[..2], 9, MOVING),
        (&SIZES[..2], 10, MOVING),
    ] {
        let mut words = three_windows();
        set_live(&mut words, 10, sizes);
        set_sub(&mut words, 2, [9, 9]);
        let set = [
            (layout::INDEX, 2),
            (layout::SCAN, 2),
            (layout::SUM, sum),
            (layout::SEEN_WINDOW, 10),
            (layout::SEEN_BOTTOM, 8),
        ];
        at(&mut words, Side::Take, Stage::Confirm, &set);
        assert_eq!(step(&mut words, 0), Answer::of(answer));
        if answer == MOVING {
            assert_eq!(phase(&words), Side::Take.phase(Stage::Window));
            assert_eq!(seen(&words), [10, 8, 3]);
        } else {
            assert_eq!((phase(&words), seen(&words)), (0, [0, 0, 0]));
        }
        assert_eq!(index(&words), 0);
    }
}

/// "A take's read and confirm sum the higher of a sub's last put row and the seen
/// window's bottom"; and only within the seen width.
#[test]
fn a_confirm_subtracts_as_the_read_adds() {
    let mut words = three_windows();
    set_live(&mut words, 15, &[(2, 1)]);
    set_sub(&mut words, 0, [3, 3]);
    set_sub(&mut words, 1, [14, 14]);
    set_sub(&mut words, 2, [21, 20]);
    begin(&mut words, 0, Side::Take);
    moves(&mut words, 0, 3);
    assert_eq!(worker_word(&words, 0, layout::SUM), 14 + 14);
    assert_eq!(phase(&words), Side::Take.phase(Stage::Confirm));
    moves(&mut words, 0, 1);
    assert_eq!(worker_word(&words, 0, layout::SUM), 14);
    assert_eq!(step(&mut words, 0), Answer::of(EMPTY));
}

#[test]
fn begins_and_final_answers_zero_what_was_seen() {
    let mut words = three_windows();
    let junk = [(layout::SEEN_BOTTOM, 77), (layout::SEEN_WIDTH, 78)];
    set_worker(&mut words, 0, &junk);
    assert_eq!(begin_put(&mut words, 0, 4), Answer::of(MOVING));
    assert_eq!(seen(&words), [0, 0, 0]);
    set_worker(&mut words, 0, &junk);
    // The put window is the seen one; its two subs are free.
    assert_eq!(finish(&mut words, 0), (put_answer(4, 0, 15, 1), 3));
    assert_eq!(seen(&words), [0, 0, 0]);
    set_worker(&mut words, 0, &junk);
    assert_eq!(begin_take(&mut words, 0), Answer::of(MOVING));
    assert_eq!(seen(&words), [0, 0, 0]);
}

/// w 2, d 1, R 6, one worker: a window of both subs, one of two rows of sub 0 alone, and
/// one of both again.
#[test]
fn a_run_by_hand() {
    let mut words = made_2(queue(2, 1, 6, 1));
    let put = |words: &mut [u32], value, sub, row, stamp, steps| {
        assert_eq!(begin_put(words, 0, value), Answer::of(MOVING));
        assert_eq!(
            finish(words, 0),
            (put_answer(value, sub, row, stamp), steps)
        );
    };
    put(&mut words, 11, 0, 1, 1, 3);
    put(&mut words, 12, 1, 1, 2, 4);
    assert_eq!(set_size(&mut words, (1, 2)), MOVING);
    put(&mut words, 13, 0, 2, 3, 7);
    put(&mut words, 14, 0, 3, 4, 3);
    assert_eq!(set_size(&mut words, (2, 1)), MOVING);
    put(&mut words, 15, 0, 4, 5, 6);
    put(&mut words, 16, 1, 4, 6, 4);
    assert_eq!(live(&words), [(2, 1), (1, 2), (2, 1)]);
    let take = |words: &mut [u32], expected: Answer, steps| {
        assert_eq!(begin_take(words, 0), Answer::of(MOVING));
        assert_eq!(finish(words, 0), (expected, steps));
    };
    take(&mut words, taken_answer(12, 1, 1, 2, 1), 3);
    take(&mut words, taken_answer(11, 0, 1, 1, 0), 4);
    take(&mut words, taken_answer(13, 0, 2, 3, 0), 7);
    take(&mut words, taken_answer(14, 0, 3, 4, 0), 3);
    take(&mut words, taken_answer(15, 0, 4, 5, 0), 6);
    take(&mut words, taken_answer(16, 1, 4, 6, 0), 4);
    take(&mut words, Answer::of(EMPTY), 4);
    assert_eq!(live(&words), [(2, 1)]);
}
