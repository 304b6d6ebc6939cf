//! Every run of a few operations of a small queue in edition 2, with a few size calls in
//! it at any place (K8): what each final answer says is true of the pool at a step of the
//! operation's own. So the puts and takes can stand at their last steps, and so can the
//! fulls; an empty stands where nothing was held.

mod common;

use common::sizes::{is_busy, live, made_2, set_size, sub, Pair, TWO};
use common::{queue, strided, worker_at};
use second::phase::Side;
use second::{in_edition, layout, segments_of_subs, Settings, EMPTY, FULL, MOVING, PUT, TAKEN};
use std::collections::hash_map::DefaultHasher;
use std::collections::{BTreeMap, HashSet};
use std::hash::{Hash, Hasher};

#[derive(Clone, Hash)]
struct State {
    words: Vec<u32>,
    /// A bit for each worker: nothing was held before some step of its operation.
    found_empty: u32,
    begins_left: u32,
    sizes_left: u32,
}

impl State {
    /// States with the same two are taken for one.
    fn name(&self) -> [u64; 2] {
        [0_u64, 1].map(|salt| {
            let mut hasher = DefaultHasher::new();
            (salt, self).hash(&mut hasher);
            hasher.finish()
        })
    }
}

fn held(words: &[u32]) -> Vec<[u32; 2]> {
    let settings = Settings::of_words(words);
    let (cells, _) = words[settings.cells_in(TWO)].as_chunks::<{ layout::CELL_WORDS }>();
    let rings = cells.chunks(settings.rows as usize);
    let mut all = Vec::new();
    for (runs, ring) in segments_of_subs(TWO, words).into_iter().zip(rings) {
        let cells = runs.into_iter().flatten().flatten();
        all.extend(cells.map(|cell| ring[cell as usize]));
    }
    all
}

/// The step of a worker, and whether its answer is true by the words before it.
fn step(state: &mut State, worker: u32) -> u32 {
    let before = state.words.clone();
    let bit = 1 << worker;
    let items = held(&before);
    if items.is_empty() {
        state.found_empty |= bit;
    }
    let answer = in_edition::step(TWO, &mut state.words, worker);
    state.words[layout::STEPS_COUNTED] = 0;
    match answer.number {
        TAKEN => {
            let own = &before[worker_at(&before, worker)..];
            let depth = own[layout::SEEN_WINDOW] - own[layout::SEEN_BOTTOM];
            let bound = (own[layout::SEEN_WIDTH] - 1) * depth;
            let older = items.iter().filter(|item| item[1] < answer.stamp);
            let passed = older.count() as u32;
            assert!(passed <= bound && answer.distance == passed, "{before:?}");
            assert!(items.contains(&[answer.value, answer.stamp]), "{before:?}");
        }
        FULL => {
            let mut bottom = before[layout::TAKE_WINDOW];
            for (width, depth) in live(&before).into_iter().skip(1) {
                for j in 0..width {
                    let [put, taken] = sub(&before, j);
                    assert!(taken <= bottom && put >= bottom + depth, "{before:?}");
                }
                bottom += depth;
            }
        }
        EMPTY => assert!(state.found_empty & bit != 0, "{before:?}"),
        number => assert!(number == MOVING || number == PUT, "{number}: {before:?}"),
    }
    if answer.is_final() {
        state.found_empty &= !bit;
    }
    answer.number
}

/// Looks at every run; how many states there are, and how often each answer was given.
fn every_run(settings: Settings, sizes: &[Pair], begins: u32, calls: u32) -> (usize, [u32; 5]) {
    let first = State {
        words: made_2(settings),
        found_empty: 0,
        begins_left: begins,
        sizes_left: calls,
    };
    let mut known = HashSet::from([first.name()]);
    let mut ahead = vec![first];
    let mut answers = [0; 5];
    while let Some(state) = ahead.pop() {
        let mut after = Vec::new();
        for worker in 0..settings.workers {
            if is_busy(&state.words, worker) {
                let mut next = state.clone();
                answers[step(&mut next, worker) as usize] += 1;
                after.push(next);
            } else if state.begins_left > 0 {
                for side in [Side::Put, Side::Take] {
                    let mut next = state.clone();
                    common::sizes::begin(&mut next.words, worker, side);
                    next.begins_left -= 1;
                    after.push(next);
                }
            }
        }
        if state.sizes_left > 0 {
            for size in sizes {
                let mut next = state.clone();
                assert_eq!(set_size(&mut next.words, *size), MOVING);
                next.sizes_left -= 1;
                after.push(next);
            }
        }
        ahead.extend(after.into_iter().filter(|next| known.insert(next.name())));
    }
    (known.len(), answers)
}

#[test]
fn every_run_of_a_few_operations() {
    let mut all = BTreeMap::new();
    for (settings, sizes, begins, calls) in [
        (queue(2, 1, 2, 2), &[(1, 1)][..], 6, 1),
        (queue(2, 1, 4, 2), &[(1, 1), (1, 2), (2, 2)], 5, 2),
        (strided(1, queue(3, 1, 3, 2)), &[(1, 1), (2, 1)], 5, 2),
        (queue(2, 1, 3, 3), &[(1, 1)], 4, 1),
    ] {
        let (states, answers) = every_run(settings, sizes, begins, calls);
        println!("{settings:?}: {states} states, answers {answers:?}");
        for (number, times) in answers.into_iter().enumerate() {
            *all.entry(number).or_insert(0) += times;
        }
        assert!(states > 10_000, "{states}");
    }
    assert!(all.values().all(|times| *times > 100), "{all:?}");
}
