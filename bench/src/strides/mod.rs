//! What the stride does to the failed commits: the figures of a page in docs. There
//! is no clock in them, so that they come out the same every time.

mod agreement;
mod crew;
mod least;
mod rows;

use crew::Figures;
use rows::{Row, OPERATIONS};

type Figure = fn(&Figures) -> f64;

/// Runs that differ by more than this share of their mean are marked.
const MARKED: f64 = 0.1;

pub fn tables() {
    let widths = [4, 8, 16].map(|width| (width, rows::of(width)));
    print_text();
    least::print_short(&widths);
    for (width, rows) in &widths {
        println!("### Width {width}\n");
        println!("Failed commits per operation, by stride:\n");
        print_table(*width, rows, |run| run.failed, two_digits);
        println!("Steps per operation, by stride:\n");
        print_table(*width, rows, |run| run.steps, |steps| format!("{steps:.1}"));
        least::print(*width, rows);
    }
    agreement::print(widths.iter().flat_map(|(_, rows)| rows));
}

fn print_text() {
    println!(
        "\
## Figures

- Failed commits: the sum of the workers' ninth words at the end, less that at the start,
  for each operation that ended; steps: word 6, likewise. A figure is the mean of two runs,
  of {},000 operations each, with different random numbers; ~ stands before it where the
  two differ by more than a tenth of it.
- All workers are busy all the time: whenever an operation ends, its worker begins the
  next. That is a put with the chance of a free cell among all cells, else a take. So the
  pool, half full at the start, stays about half full: an \"empty\" or a \"full\" would have
  ended the command, and none came.
- A stack has 1,024 cells, R = 1,024 / w, as in most tables of the benchmark, and a queue no
  more rows than 16 windows have, R = 16d at most: so many can be live at once. The depth d
  is 1, 4 or 16. A queue shifts by d, a stack by half of it, with d 1 by 1.
- Round robin: all workers step in turn, by number, which is `pool_dispatch`.
- Bursts: a worker makes 1 to 8w steps, how many is random, and then another one does, any
  other.
- At random: the same, but that a worker makes one step.
- Lock step: round robin, but each worker puts and takes by turns, at first those of even
  number put and the others take. Nothing in it is random.
- Stride 0 stands for 1: they have one column.
",
        OPERATIONS / 1_000
    );
}

fn print_table(width: u32, rows: &[Row], figure: Figure, digits: fn(f64) -> String) {
    print_head("order | kind | n | d", "---|---|---:|---:", width);
    for row in rows {
        let cells = row.strides.iter().map(|runs| {
            let (mean, apart) = (mean(runs, figure), apart(runs, figure));
            let mark = if apart > MARKED { "~" } else { "" };
            format!("{mark}{}", digits(mean))
        });
        let Row {
            way,
            kind,
            workers,
            depth,
            ..
        } = row;
        print_row(
            &format!("{} | {kind} | {workers} | {depth}", way.name),
            cells,
        );
    }
    println!();
}

fn print_head(names: &str, rule: &str, width: u32) {
    let strides = (2..width).map(|stride| format!(" {stride} |"));
    println!("| {names} | 0, 1 |{}", strides.collect::<String>());
    println!("|{rule}|{}", "---:|".repeat(width as usize - 1));
}

fn print_row(names: &str, cells: impl Iterator<Item = String>) {
    println!("| {names} | {} |", cells.collect::<Vec<_>>().join(" | "));
}

fn two_digits(failed: f64) -> String {
    match failed {
        0.0..0.0995 => format!("{failed:.3}"),
        0.0..0.995 => format!("{failed:.2}"),
        _ => format!("{failed:.1}"),
    }
}

fn mean(runs: &[Figures; 2], figure: Figure) -> f64 {
    runs.iter().map(figure).sum::<f64>() / 2.0
}

/// By how much the runs differ, as a share of their mean.
fn apart(runs: &[Figures; 2], figure: Figure) -> f64 {
    let [one, other] = runs.each_ref().map(figure);
    (one - other).abs() / mean(runs, figure)
}
