//! Paper 02, K2: a sub's held cells "in at most two straight runs, up to the last
//! cell and on from the first". The distance here does not go by them: it stays
//! row by row, so that it can tell whether an answer changes with them.

use super::edition::Edition;
use super::settings::Settings;
use super::view::Pool;
use std::ops::Range;

/// The segments of a ring of R cells that hold so many rows, the first of them
/// just above so many others: a straight run that ends at the last cell or before
/// it, and one on from the first cell, which is empty if the other has all rows.
/// Of a fit sub: at most R are held, and below + held is at most 2^32 - 1.
pub fn segments(rows: u32, below: u32, held: u32) -> [Range<u32>; 2] {
    let start = below % rows;
    let up_to_last = held.min(rows - start);
    [start..start + up_to_last, 0..held - up_to_last]
}

/// Those of each sub of a fit pool, a pair for each straight row of rows that it holds.
/// K8: "K2's runs are then for each live window", of those within whose width it lies.
pub fn segments_of_subs(edition: Edition, words: &[u32]) -> Vec<Vec<[Range<u32>; 2]>> {
    let settings = Settings::of_words(words);
    let pool = Pool {
        words: &mut words.to_vec(),
        settings,
        edition,
    };
    let of_sub = |j| {
        let held = pool.held_rows(j).into_iter();
        held.map(|held| segments(settings.rows, held.below, held.rows))
            .collect()
    };
    (0..settings.width).map(of_sub).collect()
}
