//! Stretches: steps without a final answer, begins between them, anywhere in a
//! run from make.

use super::states::{every_state, moves, STEP};
use second::Settings;
use std::collections::HashMap;

/// A state's moves in a stretch: where each leads, and how many steps it is.
type Moves = Vec<(usize, u32)>;

/// The most steps of a stretch, from every state; none if one goes on for ever.
pub fn most_steps_of_stretch(settings: Settings) -> Option<u32> {
    let graph = moves_of_stretches(settings);
    let mut ways_in = vec![0; graph.len()];
    for (to, _) in graph.iter().flatten() {
        ways_in[*to] += 1;
    }
    // In an order in which each state comes after all that lead to it. A state
    // that has no place in it is on a stretch that comes round, or behind one:
    // begins alone never come round, so that has steps.
    let mut in_order: Vec<usize> = (0..graph.len()).filter(|at| ways_in[*at] == 0).collect();
    let mut steps = vec![0; graph.len()];
    let mut place = 0;
    while let Some(from) = in_order.get(place).copied() {
        place += 1;
        for (to, step) in &graph[from] {
            steps[*to] = steps[*to].max(steps[from] + step);
            ways_in[*to] -= 1;
            if ways_in[*to] == 0 {
                in_order.push(*to);
            }
        }
    }
    (place == graph.len()).then(|| steps.into_iter().max().unwrap_or(0))
}

/// Of every state.
fn moves_of_stretches(settings: Settings) -> Vec<Moves> {
    let mut states = Vec::new();
    every_state(settings, |words| states.push(words.to_vec()));
    let numbers: HashMap<&[u32], usize> = states.iter().map(Vec::as_slice).zip(0..).collect();
    let of_state = |words: &Vec<u32>| {
        let in_stretch = moves(words)
            .into_iter()
            .filter(|(_, answer, _)| !answer.is_final());
        in_stretch
            .map(|(which, _, after)| (numbers[after.as_slice()], u32::from(which == STEP)))
            .collect()
    };
    states.iter().map(of_state).collect()
}
