//! Editions 1 and 2 may answer the same calls differently, without a size ever set (K8): the
//! two examples of it, whose texts and listings stand in examples/, in both editions. And each
//! of them stands one at a time.

mod common;

use common::run_file::bytes;
use second::phase::Side;
use second::{in_edition, one_at_a_time, Edition, Event, Fed, Settings, QUEUE};

/// A text of examples/, as its words.
fn packed(text: &str) -> Vec<u32> {
    let mut words = Vec::new();
    for line in text.lines().filter(|line| !line.starts_with('#')) {
        let parts: Vec<&str> = line.split(' ').collect();
        let number = |at: usize| {
            let digits = parts[at].trim_start_matches(|c: char| !c.is_ascii_digit());
            digits.parse::<u32>().expect("a number")
        };
        match parts[0] {
            "queue" => {
                let [width, depth, rows, workers] = [1, 2, 3, 4].map(number);
                words.push(1 << 28 | depth << 12 | depth << 5 | width);
                words.push(2 << 28 | workers << 11 | rows);
            }
            "put" => words.push(3 << 28 | number(1) << 22 | number(2)),
            "take" => words.push(4 << 28 | number(1) << 22),
            "step" => {
                let steps = if parts.len() > 2 { number(2) } else { 1 };
                words.extend((0..steps).map(|_| 5 << 28 | number(1) << 22));
            }
            "end" => words.push(6 << 28),
            other => panic!("{other}"),
        }
    }
    words
}

fn listing(edition: Edition, words: &[u32]) -> String {
    let mut printed = Vec::new();
    in_edition::list(edition, &bytes(words)[..], &mut printed).expect("bytes in memory");
    String::from_utf8(printed).expect("digits")
}

/// The run's calls stand one at a time in this edition.
fn stands(edition: Edition, words: &[u32]) {
    let settings = Settings {
        kind: QUEUE,
        width: words[0] & 31,
        depth: words[0] >> 5 & 127,
        shift: words[0] >> 5 & 127,
        rows: words[1] & 2047,
        workers: words[1] >> 11 & 63,
        stride: 0,
    };
    let mut pool = common::made_in(edition, settings);
    let mut events = Vec::new();
    for word in &words[2..words.len() - 1] {
        let worker = word >> 22 & 63;
        let (side, value) = match word >> 28 {
            3 => (Side::Put, word & 0x3f_ffff),
            4 => (Side::Take, 0),
            _ => {
                let before = pool.clone();
                let answer = in_edition::step(edition, &mut pool, worker);
                let fed = Fed::of(edition, &before, worker, &answer);
                events.push(Event::Step {
                    worker,
                    answer,
                    fed,
                });
                continue;
            }
        };
        let answer = match side {
            Side::Put => in_edition::begin_put(edition, &mut pool, worker, value),
            Side::Take => in_edition::begin_take(edition, &mut pool, worker),
        };
        events.push(Event::Begin {
            worker,
            side,
            value,
            answer,
        });
    }
    one_at_a_time(&settings, u32::MAX, &events).expect("it stands one at a time");
}

/// The listings of editions 1 and 2.
fn differ(text: &str, listings: [&str; 2]) {
    let words = packed(text);
    for (edition, expected) in [Edition::One, Edition::Two].into_iter().zip(listings) {
        assert_eq!(listing(edition, &words), expected, "{edition:?}");
        stands(edition, &words);
    }
}

/// Edition 1 answers "empty" at word 25; then worker 1 is idle.
#[test]
fn a_confirm_whose_put_window_has_moved() {
    let in_edition_1 = "\
5 1 0 7 0 1 1 0
9 2 0 7 0 1 1 0
19 1 0 8 1 1 2 0
25 3 1 0 0 0 0 0
26 26 1 0 0 0 0 0
27 26 1 0 0 0 0 0
28 26 1 0 0 0 0 0
held 1 worst 0
";
    differ(
        include_str!("../../../examples/put-window-raised.txt"),
        [
            in_edition_1,
            include_str!("../../../examples/put-window-raised.listing"),
        ],
    );
}

/// Edition 1 raises a seventeenth window at word 114, so that worker 0 is still busy where the
/// next put would begin.
#[test]
fn sixteen_live_windows() {
    let in_edition_2 = include_str!("../../../examples/sixteen-windows.listing");
    let sixteen: String = in_edition_2.split_inclusive('\n').take(16).collect();
    let in_edition_1 = sixteen
        + "\
118 2 1 1 0 1 1 0
125 2 1 2 0 2 2 0
126 25 0 0 0 0 0 0
129 1 0 17 0 17 17 0
130 26 0 0 0 0 0 0
131 26 0 0 0 0 0 0
132 26 0 0 0 0 0 0
held 15 worst 0
";
    differ(
        include_str!("../../../examples/sixteen-windows.txt"),
        [&in_edition_1, in_edition_2],
    );
}
