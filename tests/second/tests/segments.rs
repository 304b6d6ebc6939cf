//! The segments of a sub's held cells (K2): that they are exactly its held cells,
//! once each, and that a distance counted by them is the answer's.

mod common;

use common::{made_in, queue, stack, Numbers};
use second::phase::{Side, Stage};
use second::{in_edition, layout, segments, Edition, Settings, QUEUE, SPACER, TAKEN};
use std::ops::Range;

const TOP: u32 = u32::MAX;

/// R from its least on, and large ones up to its most.
fn every_size() -> impl Iterator<Item = u32> {
    (2..=40).chain([64, 1_000, 1_023, 1_024])
}

/// Three laps of the ring from row 1 on, and the last two below 2^32.
fn every_start(rows: u32) -> impl Iterator<Item = u32> {
    (0..=3 * rows).chain(TOP - 2 * rows..=TOP)
}

/// Of up to R rows in row order, by paper 01's (r - 1) mod R. No row is above
/// 2^32 - 1.
fn cells_of_rows(rows: u32, below: u32) -> Vec<u32> {
    let held = (1..=rows).map_while(|k| below.checked_add(k));
    held.map(|row| (row - 1) % rows).collect()
}

#[test]
fn by_hand() {
    assert_eq!(segments(4, 0, 0), [0..0, 0..0]);
    assert_eq!(segments(4, 3, 0), [3..3, 0..0]);
    assert_eq!(segments(4, 1, 2), [1..3, 0..0]);
    assert_eq!(segments(4, 1, 3), [1..4, 0..0]);
    assert_eq!(segments(4, 3, 1), [3..4, 0..0]);
    assert_eq!(segments(4, 3, 3), [3..4, 0..2]);
    assert_eq!(segments(4, 8, 4), [0..4, 0..0]);
    assert_eq!(segments(4, 9, 4), [1..4, 0..1]);
    assert_eq!(segments(4, TOP - 2, 2), [1..3, 0..0]);
    // 2^32 is 1 modulo 3: the last row that a count can have is in the last cell.
    assert_eq!(segments(3, TOP - 3, 3), [0..3, 0..0]);
    assert_eq!(segments(3, TOP - 4, 3), [2..3, 0..2]);
}

/// The cells of a segment, one after the other.
fn run<T>(ring: &[T], segment: Range<u32>) -> &[T] {
    &ring[segment.start as usize..segment.end as usize]
}

#[test]
fn exactly_the_held_cells_once_each() {
    for rows in every_size() {
        let ring: Vec<u32> = (0..rows).collect();
        for below in every_start(rows) {
            let cells = cells_of_rows(rows, below);
            for held in 0..=cells.len() {
                let [first, second] = segments(rows, below, held as u32);
                let named = || format!("R {rows}, {held} rows above {below}");
                assert!(second.is_empty() || first.end == rows, "{}", named());
                assert_eq!(second.start, 0, "{}", named());
                // No cell is in both.
                assert!(second.end <= first.start, "{}", named());
                let (up_to_last, on) = cells[..held].split_at(first.len());
                assert_eq!(run(&ring, first), up_to_last, "{}", named());
                assert_eq!(run(&ring, second), on, "{}", named());
            }
        }
    }
}

/// The two words of a sub, by the rows below the held ones and the held ones.
fn sub_words(settings: &Settings, below: u32, held: u32) -> [u32; 2] {
    match settings.kind {
        QUEUE => [below + held, below],
        _ => [held, 0],
    }
}

/// Every sub of a pool of this kind: a stack has no rows below.
fn every_sub(settings: &Settings) -> Vec<(u32, u32)> {
    let starts = match settings.kind {
        QUEUE => every_start(settings.rows).collect(),
        _ => vec![0],
    };
    let held = |below| (0..=settings.rows.min(TOP - below)).map(move |held| (below, held));
    starts.into_iter().flat_map(held).collect()
}

/// A pool of two subs in edition 1, in which no window bears on what is held; the first of which worker 0 is about to take from. Its
/// stamps are few, so that beside each there are smaller, equal and greater ones,
/// and so are its values, a quarter of them spacers.
fn before_a_take(settings: Settings, subs: [(u32, u32); 2], numbers: &mut Numbers) -> Vec<u32> {
    let mut words = made_in(Edition::One, settings);
    let [first, second] = subs.map(|(below, held)| sub_words(&settings, below, held));
    words[settings.subs_at()..settings.workers_at()].copy_from_slice(&[first, second].concat());
    let worker = settings.workers_at();
    words[worker + layout::PHASE] = Side::Take.phase(Stage::Commit);
    // Items taken of a queue, the version of a stack.
    words[worker + layout::SEEN] = first[1];
    for cell in words[settings.cells_in(Edition::One)].chunks_mut(layout::CELL_WORDS) {
        cell[layout::CELL_VALUE] = numbers.below(4) as u32;
        cell[layout::CELL_STAMP] = numbers.below(8) as u32;
    }
    words
}

/// The items that count beside this stamp, gone through by segments.
fn ahead(words: &[u32], subs: [(u32, u32); 2], stamp: u32) -> u32 {
    let settings = Settings::of_words(words);
    let (cells, _) = words[settings.cells_in(Edition::One)].as_chunks::<{ layout::CELL_WORDS }>();
    let mut ahead = 0;
    for ((below, held), ring) in subs.into_iter().zip(cells.chunks(settings.rows as usize)) {
        for segment in segments(settings.rows, below, held) {
            let counted = run(ring, segment)
                .iter()
                .filter(|[value, other]| match settings.kind {
                    QUEUE => *other < stamp && *value != SPACER,
                    _ => *other > stamp && *value != SPACER,
                });
            ahead += counted.count() as u32;
        }
    }
    ahead
}

/// How many takes had a distance above 0.
fn compare_distances(settings: Settings, subs: [(u32, u32); 2], numbers: &mut Numbers) -> u32 {
    let mut above_0 = 0;
    for _ in 0..10 {
        let mut words = before_a_take(settings, subs, numbers);
        let before = words.clone();
        let answer = in_edition::step(Edition::One, &mut words, 0);
        assert_eq!(answer.number, TAKEN);
        let counted = ahead(&before, subs, answer.stamp);
        assert_eq!(answer.distance, counted, "{settings:?}, {subs:?}");
        above_0 += u32::from(counted > 0);
    }
    above_0
}

#[test]
fn a_distance_by_segments_is_the_answers() {
    let mut numbers = Numbers(1);
    for rows in 2..=5 {
        for settings in [queue(2, 1, rows, 1), stack(2, 1, 1, rows, 1)] {
            let every_sub = every_sub(&settings);
            let mut above_0 = 0;
            for first in every_sub.iter().filter(|(_, held)| *held > 0) {
                for second in &every_sub {
                    above_0 += compare_distances(settings, [*first, *second], &mut numbers);
                }
            }
            assert!(above_0 > 20, "{above_0} with {settings:?}");
        }
    }
}
