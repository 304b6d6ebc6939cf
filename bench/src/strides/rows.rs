//! The rows of the tables: a pool, an order of steps, and the figures of each stride.

use super::crew::{figures, Figures, Mix, Order};
use crate::tables::{settings, CELLS, KINDS};
use second::layout::MOST_LIVE;
use second::{Settings, QUEUE};

/// Operations of each run.
pub const OPERATIONS: u32 = 50_000;

/// How the workers go on, by its name in the tables.
pub struct Way {
    pub name: &'static str,
    order: fn(u32) -> Order,
    pub mix: Mix,
    depths: &'static [u32],
}

pub static WAYS: [Way; 4] = [
    Way {
        name: "round robin",
        order: |_| Order::RoundRobin,
        mix: Mix::Random,
        depths: &[1, 4, 16],
    },
    Way {
        name: "bursts",
        order: |width| Order::Bursts { most: 8 * width },
        mix: Mix::Random,
        depths: &[1, 4, 16],
    },
    Way {
        name: "at random",
        order: |_| Order::Bursts { most: 1 },
        mix: Mix::Random,
        depths: &[4],
    },
    Way {
        name: "lock step",
        order: |_| Order::RoundRobin,
        mix: Mix::ByTurns,
        depths: &[4],
    },
];

pub struct Row {
    pub way: &'static Way,
    pub kind: &'static str,
    pub workers: u32,
    pub depth: u32,
    /// Of each stride from 1 on, two runs.
    pub strides: Vec<[Figures; 2]>,
}

pub fn of(width: u32) -> Vec<Row> {
    let mut rows = Vec::new();
    for way in &WAYS {
        for (kind, name) in KINDS {
            for workers in [8, 32] {
                for depth in way.depths {
                    let strides = (1..width).map(|stride| {
                        let settings = pool(kind, width, *depth, workers, stride);
                        runs(&settings, way)
                    });
                    rows.push(Row {
                        way,
                        kind: name,
                        workers,
                        depth: *depth,
                        strides: strides.collect(),
                    });
                }
            }
        }
    }
    rows
}

/// A queue's rows are no more than so many windows have as can be live.
fn pool(kind: u32, width: u32, depth: u32, workers: u32, stride: u32) -> Settings {
    let shift = if kind == QUEUE {
        depth
    } else {
        depth.div_ceil(2)
    };
    let rows = match kind {
        QUEUE => (MOST_LIVE * depth).min(CELLS / width),
        _ => CELLS / width,
    };
    Settings {
        depth,
        shift,
        stride,
        ..settings(kind, width, rows, workers)
    }
}

/// With two cases of random numbers; where there is nothing random, one run twice.
fn runs(settings: &Settings, way: &Way) -> [Figures; 2] {
    let order = (way.order)(settings.width);
    let run = |case| figures(settings, order, way.mix, OPERATIONS, case);
    match way.mix {
        Mix::Random => [run(1), run(2)],
        Mix::ByTurns => [run(1); 2],
    }
}
