//! A dispatch beside the same steps made by one call each: what it saves to check
//! the pool once.

use crate::busy::{busy, Busy, MANY};
use crate::measure::{in_turn, medians};
use crate::tables::{print_range, settings, CELLS, KINDS};
use compiled::{dispatch_into, step_into, DispatchFields, Fields};
use second::{Dispatched, MOVING};
use std::hint::black_box;
use std::time::Instant;

/// Steps timed per round and way, at least.
const STEPS: u32 = 4_000;

pub fn table() {
    println!("## A dispatch beside the same steps, one call each\n");
    println!(
        "Nanoseconds per step, all workers' steps round and round by number: a `pool_step` for"
    );
    println!(
        "each, while the caller keeps whose turn it is / one `pool_dispatch` up to each final"
    );
    println!(
        "answer. A dispatch checks the pool once, each `pool_step` checks it again. All workers"
    );
    println!("are always busy, on a pool about half full: whenever an operation ends, its worker");
    println!(
        "begins the next, a take after a put and a put after a take. Begins are not timed: the"
    );
    println!(
        "words that they change are written without a call. The dispatcher of `fast` checks at"
    );
    println!("each step, as `pool_step` does.\n");
    println!("| kind | w | n | steps per answer | steps / dispatch = ratio | dispatch of fast |");
    println!("|---|---:|---:|---:|---:|---:|");
    let mut ratios = Vec::new();
    for (kind, name) in KINDS {
        for width in [2, 4, 16] {
            for workers in [2, 8, 32] {
                let settings = settings(kind, width, CELLS / width, workers);
                let busy = busy(&settings, CELLS / 2, STEPS);
                let per_answer = f64::from(busy.steps()) / busy.begins.len() as f64;
                let [dispatch, steps, fast, ratio] = measure(&busy, workers);
                println!(
                    "| {name} | {width} | {workers} | {per_answer:.1} | \
                     {steps:.0} / {dispatch:.0} = {ratio:.2} | {fast:.0} |"
                );
                ratios.push(ratio);
            }
        }
    }
    print_range(ratios);
}

/// Nanoseconds per step by dispatches, by step calls and by dispatches of `fast`,
/// and the ratio of the second to the first: medians over the rounds.
fn measure(busy: &Busy, workers: u32) -> [f64; 4] {
    let rounds = in_turn(|way| match way {
        0 => time(busy, workers, by_dispatch()),
        1 => time(busy, workers, by_steps(workers)),
        _ => time(busy, workers, by_fast_dispatch),
    });
    medians(&rounds, |[dispatch, steps, fast]| {
        [dispatch, steps, fast, steps / dispatch]
    })
}

/// `finish` steps from a worker on, up to a final answer: whose it is.
fn time(busy: &Busy, workers: u32, mut finish: impl FnMut(&mut [u32], u32) -> u32) -> f64 {
    let mut words = busy.start.clone();
    let mut turn = 0;
    let start = Instant::now();
    for begin in &busy.begins {
        let worker = finish(black_box(&mut words), turn);
        begin.write(&mut words);
        turn = after(worker, workers);
    }
    let time = start.elapsed();
    assert!(words == busy.end, "not the same steps");
    time.as_nanos() as f64 / f64::from(busy.steps())
}

fn by_dispatch() -> impl FnMut(&mut [u32], u32) -> u32 {
    let mut fields = DispatchFields::default();
    move |words, turn| {
        black_box(dispatch_into(words, turn, MANY, &mut fields));
        black_box(&fields)[5]
    }
}

fn by_steps(workers: u32) -> impl FnMut(&mut [u32], u32) -> u32 {
    let mut fields = Fields::default();
    move |words, mut turn| {
        while step_into(words, turn, &mut fields) == MOVING {
            turn = after(turn, workers);
        }
        black_box(&fields);
        turn
    }
}

fn by_fast_dispatch(words: &mut [u32], turn: u32) -> u32 {
    let dispatched = fast::dispatch(words, turn, MANY);
    match black_box(&dispatched) {
        Dispatched::Finished { worker, .. } => *worker,
        other => panic!("{other:?}"),
    }
}

fn after(worker: u32, workers: u32) -> u32 {
    if worker + 1 == workers {
        0
    } else {
        worker + 1
    }
}
