//! The two runs behind each figure, beside each other.

use super::crew::Mix;
use super::rows::{Row, WAYS};
use super::{apart, Figure};

const TEXT: &str = "\
### The two runs of a figure

By how much they differ, in percent of the figure: in half of all figures at most, in nine
of ten, in all.

| order | figures | failed commits: half | nine of ten | all | steps: half | nine of ten | all |
|---|---:|---:|---:|---:|---:|---:|---:|";

pub fn print<'a>(rows: impl Iterator<Item = &'a Row> + Clone) {
    println!("{TEXT}");
    for way in WAYS.iter().filter(|way| way.mix == Mix::Random) {
        let of = |figure: Figure| {
            let rows = rows.clone().filter(|row| row.way.name == way.name);
            let runs = rows.flat_map(|row| &row.strides);
            let mut apart: Vec<f64> = runs.map(|runs| apart(runs, figure)).collect();
            apart.sort_by(f64::total_cmp);
            apart
        };
        let (failed, steps) = (of(|run| run.failed), of(|run| run.steps));
        let cells = [shares(&failed), shares(&steps)].concat().join(" | ");
        println!("| {} | {} | {cells} |", way.name, failed.len());
    }
}

fn shares(sorted: &[f64]) -> [String; 3] {
    let last = sorted.len() - 1;
    [last / 2, last * 9 / 10, last].map(|at| format!("{:.1}", 100.0 * sorted[at]))
}
