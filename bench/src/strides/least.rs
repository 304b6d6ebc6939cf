//! How far each stride is from the best of its row.

use super::crew::Mix;
use super::rows::{Row, Way, WAYS};
use super::{mean, print_head, print_row, Figure};
use std::fmt;

const FIGURES: [(&str, Figure); 2] = [
    ("failed commits", |run| run.failed),
    ("steps", |run| run.steps),
];

const SHORT: &str = "\
### In short

Round robin: all strides from the best on (1 is 0 as well), each with how many times the
least of a row it has, in the geometric mean over all rows.

| figure | w | stride: times the least |
|---|---:|---|";

/// Times the least of its row, over all rows of an order: geometric mean and greatest.
struct Times {
    mean: f64,
    greatest: f64,
}

impl fmt::Display for Times {
    fn fmt(&self, f: &mut fmt::Formatter) -> fmt::Result {
        write!(f, "{:.2}, {:.2}", self.mean, self.greatest)
    }
}

/// A line for each width and figure, in round robin: the strides from the best on.
pub fn print_short(widths: &[(u32, Vec<Row>)]) {
    println!("{SHORT}");
    for (name, figure) in FIGURES {
        for (width, rows) in widths {
            let times = by_stride(rows, &WAYS[0], figure).into_iter().zip(1..);
            let mut means: Vec<_> = times.map(|(times, stride)| (times.mean, stride)).collect();
            means.sort_by(|one, other| one.0.total_cmp(&other.0));
            let means = means
                .iter()
                .map(|(mean, stride)| format!("{stride}: {mean:.2}"));
            println!(
                "| {name} | {width} | {} |",
                means.collect::<Vec<_>>().join(", ")
            );
        }
    }
    println!();
}

/// For each order the rows of a width, by stride.
pub fn print(width: u32, rows: &[Row]) {
    println!("Times the least of a row: geometric mean over the rows of an order, and greatest.\n");
    print_head("figure | order", "---|---", width);
    let [failed, steps] = FIGURES;
    // In lock step some strides' commits fail at the start alone: nothing to hold others to.
    for way in WAYS.iter().filter(|way| way.mix == Mix::Random) {
        print_of(rows, way, failed);
    }
    for way in &WAYS {
        print_of(rows, way, steps);
    }
    println!();
}

fn print_of(rows: &[Row], way: &Way, (name, figure): (&str, Figure)) {
    let times = by_stride(rows, way, figure);
    let cells = times.iter().map(Times::to_string);
    print_row(&format!("{name} | {}", way.name), cells);
}

/// Of each stride from 1 on.
fn by_stride(rows: &[Row], way: &Way, figure: Figure) -> Vec<Times> {
    let rows = rows.iter().filter(|row| row.way.name == way.name);
    let rows: Vec<Vec<f64>> = rows.map(|row| times_least(row, figure)).collect();
    let of = |stride: usize| {
        let times = rows.iter().map(|row| row[stride]);
        let logs: f64 = times.clone().map(f64::ln).sum();
        Times {
            mean: (logs / rows.len() as f64).exp(),
            greatest: times.fold(0.0, f64::max),
        }
    };
    (0..rows[0].len()).map(of).collect()
}

fn times_least(row: &Row, figure: Figure) -> Vec<f64> {
    let means = row.strides.iter().map(|runs| mean(runs, figure));
    let least = means.clone().fold(f64::INFINITY, f64::min);
    means.map(|mean| mean / least).collect()
}
