//! Takes that pass over as many items as can be, with values of choice, and how
//! many those are, spacers too.

use super::{finish, made, put, stack, take, taken_answer};
use second::{begin_put, begin_take, layout, step, Answer, Settings, MOVING, QUEUE};

/// The items that a take of this stamp passes over, by value: held ones with a
/// smaller stamp (queue) or a greater one (stack).
pub fn passed_over(words: &[u32], stamp: u32) -> Vec<u32> {
    let settings = Settings::of_words(words);
    let is_ahead = |other: u32| match settings.kind {
        QUEUE => other < stamp,
        _ => other > stamp,
    };
    let held = held(words, &settings).into_iter();
    held.filter(|(_, other)| is_ahead(*other))
        .map(|(value, _)| value)
        .collect()
}

/// Values and stamps, sub by sub and row by row.
fn held(words: &[u32], settings: &Settings) -> Vec<(u32, u32)> {
    let mut held = Vec::new();
    for j in 0..settings.width {
        let sub = &words[settings.subs_at() + layout::SUB_WORDS * j as usize..];
        let rows = match settings.kind {
            QUEUE => sub[layout::ITEMS_TAKEN] + 1..=sub[layout::ITEMS_PUT],
            _ => 1..=sub[layout::ITEMS_HELD],
        };
        for row in rows {
            let cell = (j * settings.rows + (row - 1) % settings.rows) as usize;
            let at = settings.cells_at() + layout::CELL_WORDS * cell;
            held.push((
                words[at + layout::CELL_VALUE],
                words[at + layout::CELL_STAMP],
            ));
        }
    }
    held
}

/// One worker of a new queue fills the window of all subs but the last one with
/// these values, puts `taken` into the last one, and is about to take that.
pub fn queue_at_the_bound(settings: Settings, passed: &[u32], taken: u32) -> Vec<u32> {
    let mut words = made(settings);
    for value in passed.iter().chain([&taken]) {
        put(&mut words, 0, *value);
    }
    begin_take(&mut words, 0);
    moves(&mut words, 0, 2);
    words
}

/// The stack of `stack_at_the_bound`.
pub fn small_stack() -> Settings {
    stack(2, 1, 1, 2, 2)
}

/// Worker 1 of this stack is about to take what it put first, and worker 0 has
/// filled the other sub to the highest window with these two.
pub fn stack_at_the_bound(passed: [u32; 2], taken: u32) -> Vec<u32> {
    let mut words = made(small_stack());
    put(&mut words, 1, taken);
    put(&mut words, 1, 6);
    // Both subs are full: worker 0 comes to its shift.
    begin_put(&mut words, 0, passed[0]);
    moves(&mut words, 0, 3);
    assert_eq!(take(&mut words, 1).0, taken_answer(6, 0, 1, 2, 0));
    // Sub 0 is empty: worker 1 comes to commit at sub 1.
    begin_take(&mut words, 1);
    moves(&mut words, 1, 4);
    moves(&mut words, 0, 1);
    finish(&mut words, 0);
    put(&mut words, 0, passed[1]);
    words
}

fn moves(words: &mut [u32], worker: u32, steps: u32) {
    for _ in 0..steps {
        assert_eq!(step(words, worker), Answer::of(MOVING));
    }
}
