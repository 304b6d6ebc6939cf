//! What is held where windows have sizes of their own (K8): by the sentence, row by row,
//! beside the runs of each live window and the distance of a take.

mod common;

use common::sizes::Pair;
use common::sizes::{is_fit, live, made_2, set_live, set_sub, set_worker, step, sub, TWO};
use common::{put_answer, queue, set_phase, taken_answer, Numbers};
use second::phase::{Side, Stage};
use second::{layout, segments_of_subs, Settings, TAKEN};
use std::collections::BTreeSet;

const TOP: u32 = u32::MAX;

/// "A row of a sub at or below the take window's bottom, outside its window's width, or
/// above the put window's top holds nothing"; nor does one that was taken, or not put.
fn held_rows(words: &[u32], j: u32) -> Vec<u32> {
    let [put, taken] = sub(words, j);
    let holds = |row: u32| {
        let mut bottom = words[layout::TAKE_WINDOW] - live(words)[0].1;
        if row <= bottom || row > words[layout::PUT_WINDOW] {
            return false;
        }
        for (width, depth) in live(words) {
            bottom += depth;
            if row <= bottom {
                return j < width;
            }
        }
        false
    };
    // No more than R of a fit sub's rows are above the take window's bottom.
    let rows = Settings::of_words(words).rows;
    let from = taken.max(put.saturating_sub(rows)).checked_add(1);
    let all = from.map(|from| from..=put).into_iter().flatten();
    all.filter(|row| holds(*row)).collect()
}

fn cell(words: &[u32], j: u32, row: u32) -> [u32; 2] {
    let settings = Settings::of_words(words);
    let (cells, _) = words[settings.cells_in(TWO)].as_chunks::<{ layout::CELL_WORDS }>();
    cells[(j * settings.rows + row.wrapping_sub(1) % settings.rows) as usize]
}

/// w 3, d 2, R 9: rows 9 and 10 of three subs, 11 to 14 of one, 15 of two.
fn three_windows() -> Vec<u32> {
    let mut words = made_2(queue(3, 2, 9, 1));
    set_live(&mut words, 10, &[(3, 2), (1, 4), (2, 1)]);
    words
}

#[test]
fn by_hand() {
    let all = [
        (0, [16, 3], vec![9, 10, 11, 12, 13, 14, 15]),
        (0, [13, 9], vec![10, 11, 12, 13]),
        (0, [17, 12], vec![13, 14, 15]),
        (1, [16, 3], vec![9, 10, 15]),
        (1, [15, 10], vec![15]),
        (1, [14, 10], vec![]),
        (2, [16, 3], vec![9, 10]),
        (2, [15, 12], vec![]),
        (2, [7, 7], vec![]),
    ];
    for (j, rows, held) in all {
        let mut words = three_windows();
        set_sub(&mut words, j, rows);
        assert!(is_fit(&words));
        assert_eq!(held_rows(&words, j), held, "{j}, {rows:?}");
    }
    // Of sub 1 two windows have runs: rows 9 and 10 are cells 8 and 0, row 15 cell 5.
    let mut words = three_windows();
    set_sub(&mut words, 1, [16, 3]);
    let runs = segments_of_subs(TWO, &words);
    assert_eq!(runs[1], [[8..9, 0..1], [5..6, 0..0]]);
}

/// A fit pool of several windows, anywhere up to 2^32, with a take about to be made.
fn image(numbers: &mut Numbers, settings: Settings) -> Option<Vec<u32>> {
    let mut words = made_2(settings);
    let number = 1 + numbers.below(5);
    let pair = |numbers: &mut Numbers| -> Pair {
        let width = 1 + numbers.below(settings.width as usize);
        let depth = 1 + numbers.below((settings.rows / 2) as usize);
        (width as u32, depth as u32)
    };
    let sizes: Vec<Pair> = (0..number).map(|_| pair(numbers)).collect();
    let deep: u32 = sizes.iter().map(|(_, depth)| depth).sum();
    let bottom = [0, 5, 1 << 31, TOP - deep][numbers.below(4)];
    set_live(&mut words, bottom + sizes[0].1, &sizes);
    for j in 0..settings.width {
        let below = [0, 1, 2, settings.rows, 3 * settings.rows][numbers.below(5)];
        let above = numbers.below(settings.rows as usize + 1) as u32;
        let mut rows = [
            (u64::from(bottom.saturating_sub(below)) + u64::from(above)).min(TOP.into()) as u32,
            bottom.saturating_sub(below),
        ];
        if numbers.below(2) == 0 {
            let base = bottom.saturating_add(numbers.below(deep as usize) as u32);
            rows = [base.saturating_add(above), base];
        }
        let higher = rows[1].max(bottom);
        if rows[0] != rows[1] && !(1..=settings.rows).contains(&rows[0].wrapping_sub(higher)) {
            rows[0] = rows[1];
        }
        set_sub(&mut words, j, rows);
    }
    for at in settings.cells_in(TWO) {
        words[at] = numbers.below(8) as u32;
    }
    set_phase(&mut words, 0, Side::Take.phase(Stage::Commit));
    let index = numbers.below(settings.width as usize) as u32;
    let [put, taken] = sub(&words, index);
    let seen_bottom = [bottom, taken, 0][numbers.below(3)];
    let set = [
        (layout::INDEX, index),
        (layout::SEEN, taken),
        (layout::SEEN_BOTTOM, seen_bottom),
    ];
    set_worker(&mut words, 0, &set);
    assert!(is_fit(&words), "{words:?}");
    (taken.max(seen_bottom) < put).then_some(words)
}

#[test]
fn runs_are_the_held_cells_once_each_and_give_the_distance() {
    let mut numbers = Numbers(8);
    let (mut takes, mut above_0, mut several, mut none_held) = (0, 0, 0, 0);
    for turn in 0..60_000 {
        let settings = [queue(1, 1, 3, 1), queue(3, 2, 9, 1), queue(4, 3, 8, 1)][turn % 3];
        let Some(mut words) = image(&mut numbers, settings) else {
            continue;
        };
        let before = words.clone();
        let answer = step(&mut words, 0);
        assert_eq!(answer.number, TAKEN, "{before:?}");
        let all_runs = segments_of_subs(TWO, &before);
        let mut ahead = 0;
        let mut held_at_all = false;
        for j in 0..settings.width {
            let held = held_rows(&before, j);
            let in_cells = held.iter().map(|row| (row - 1) % settings.rows);
            let runs = all_runs[j as usize].clone();
            assert!(runs.len() <= live(&before).len());
            several += u32::from(runs.iter().filter(|run| !run[0].is_empty()).count() > 1);
            let by_runs: Vec<u32> = runs.into_iter().flatten().flatten().collect();
            assert_eq!(by_runs, in_cells.collect::<Vec<u32>>(), "{before:?}");
            let once: BTreeSet<&u32> = by_runs.iter().collect();
            assert_eq!(once.len(), by_runs.len());
            held_at_all |= j == answer.sub && held.contains(&answer.row);
            for row in held {
                let [value, stamp] = cell(&before, j, row);
                ahead += u32::from(value != 0 && stamp < answer.stamp);
            }
        }
        assert_eq!(answer.distance, ahead, "{before:?}");
        takes += 1;
        above_0 += u32::from(ahead > 0);
        // "A take of a row that no live window holds still answers 2."
        none_held += u32::from(!held_at_all);
    }
    assert!(takes > 10_000 && above_0 > 5_000, "{takes}, {above_0}");
    assert!(several > 5_000 && none_held > 500, "{several}, {none_held}");
}

/// The held rows that the lister ends with: those of all windows.
#[test]
fn held_in_a_listing() {
    let word = |width: u32, depth: u32| 8 << 28 | depth << 5 | width;
    // Queue w 2, d 1, R 6, n 1: `a_run_by_hand` of size_rules.rs, and one take.
    let mut file = vec![0x10001022, 0x20000806];
    let put = |file: &mut Vec<u32>, value: u32, steps: usize| {
        file.push(0x30000000 | value);
        file.extend(vec![0x50000000; steps]);
    };
    put(&mut file, 11, 3);
    put(&mut file, 12, 4);
    file.push(word(1, 2));
    put(&mut file, 13, 7);
    put(&mut file, 14, 3);
    file.push(word(2, 1));
    put(&mut file, 15, 6);
    put(&mut file, 16, 4);
    file.extend([0x40000000, 0x50000000, 0x50000000, 0x50000000, 0x60000000]);
    let bytes: Vec<u8> = file.iter().flat_map(|word| word.to_le_bytes()).collect();
    let mut output = Vec::new();
    second::in_edition::list(TWO, &bytes[..], &mut output).expect("memory");
    let listing = String::from_utf8(output).expect("digits and words");
    let expected = [
        (5, put_answer(11, 0, 1, 1)),
        (10, put_answer(12, 1, 1, 2)),
        (19, put_answer(13, 0, 2, 3)),
        (23, put_answer(14, 0, 3, 4)),
        (31, put_answer(15, 0, 4, 5)),
        (36, put_answer(16, 1, 4, 6)),
        (40, taken_answer(12, 1, 1, 2, 1)),
    ];
    let mut lines = String::new();
    for (position, answer) in expected {
        let [value, sub, row, stamp, distance] = answer.fields();
        let number = answer.number;
        lines += &format!("{position} {number} 0 {value} {sub} {row} {stamp} {distance}\n");
    }
    assert_eq!(listing, lines + "held 5 worst 1\n");
}
