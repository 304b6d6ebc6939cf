//! Time per call of both sides, round by round in turn; the median counts.

use crate::side::{Compiled, Fast, Side};
use crate::workload::Workload;
use sides::Call;
use std::hint::black_box;
use std::time::{Duration, Instant};

/// Rounds per measurement; the order of the sides alternates.
pub const ROUNDS: usize = 51;
/// Calls timed per round and side, at least.
const CALLS: usize = 4_000;

/// Nanoseconds per call, each the median over the rounds. The ratio is the
/// median of the rounds' ratios: a disturbance mostly hits a whole round.
#[derive(Clone, Copy)]
pub struct Times {
    pub compiled: f64,
    pub fast: f64,
    pub ratio: f64,
}

/// Of the workload's puts and of its takes.
pub struct Measured {
    pub puts: Times,
    pub takes: Times,
}

/// A side's times in each round, of the puts and of the takes.
#[derive(Default)]
struct Rounds {
    puts: Vec<f64>,
    takes: Vec<f64>,
}

pub fn measure(workload: &Workload) -> Measured {
    let (mut compiled, mut fast) = (Rounds::default(), Rounds::default());
    // One round to warm up.
    time::<Compiled>(workload, &mut Rounds::default());
    time::<Fast>(workload, &mut Rounds::default());
    for round in 0..ROUNDS {
        if round % 2 == 0 {
            time::<Compiled>(workload, &mut compiled);
            time::<Fast>(workload, &mut fast);
        } else {
            time::<Fast>(workload, &mut fast);
            time::<Compiled>(workload, &mut compiled);
        }
    }
    Measured {
        puts: times(compiled.puts, fast.puts),
        takes: times(compiled.takes, fast.takes),
    }
}

fn times(compiled: Vec<f64>, fast: Vec<f64>) -> Times {
    let ratios = compiled
        .iter()
        .zip(&fast)
        .map(|(ours, theirs)| ours / theirs);
    Times {
        ratio: median(ratios.collect()),
        compiled: median(compiled),
        fast: median(fast),
    }
}

fn time<S: Side + Default>(workload: &Workload, into: &mut Rounds) {
    let mut side = S::default();
    let repeats = CALLS.div_ceil(workload.puts.len().min(workload.takes.len()));
    let mut words = workload.start.clone();
    let (mut puts, mut takes) = (Duration::ZERO, Duration::ZERO);
    for _ in 0..repeats {
        words.copy_from_slice(&workload.start);
        puts += time_calls(&mut side, &mut words, &workload.puts);
        takes += time_calls(&mut side, &mut words, &workload.takes);
    }
    assert!(words == workload.end, "{} did something else", S::NAME);
    into.puts
        .push(per_call(puts, repeats * workload.puts.len()));
    into.takes
        .push(per_call(takes, repeats * workload.takes.len()));
}

fn time_calls<S: Side>(side: &mut S, words: &mut [u32], calls: &[Call]) -> Duration {
    let start = Instant::now();
    for call in calls {
        side.call(black_box(&mut *words), *call);
    }
    start.elapsed()
}

fn per_call(time: Duration, calls: usize) -> f64 {
    time.as_nanos() as f64 / calls as f64
}

/// The times of several ways in each round. The ways take turns, and which of them
/// is the first changes from round to round; one round more comes before, to warm up.
pub fn in_turn<const WAYS: usize>(mut time: impl FnMut(usize) -> f64) -> Vec<[f64; WAYS]> {
    let rounds = (0..=ROUNDS).map(|round| {
        let mut times = [0.0; WAYS];
        for place in 0..WAYS {
            let way = (round + place) % WAYS;
            times[way] = time(way);
        }
        times
    });
    rounds.skip(1).collect()
}

/// Figures that each round's times give, each the median over the rounds.
pub fn medians<const WAYS: usize, const FIGURES: usize>(
    rounds: &[[f64; WAYS]],
    figures: impl Fn([f64; WAYS]) -> [f64; FIGURES],
) -> [f64; FIGURES] {
    let rounds: Vec<_> = rounds.iter().map(|times| figures(*times)).collect();
    std::array::from_fn(|figure| median(rounds.iter().map(|round| round[figure]).collect()))
}

pub fn median(mut times: Vec<f64>) -> f64 {
    times.sort_by(f64::total_cmp);
    times[times.len() / 2]
}
