//! The measurements as Markdown.

use crate::measure::{measure, Measured, Times};
use crate::workload::{workload, Fill};
use second::layout::MOST_LIVE;
use second::{Settings, QUEUE, STACK};

/// Cells of a pool, however wide it is, unless a table says otherwise.
pub const CELLS: u32 = 1024;
pub const KINDS: [(u32, &str); 2] = [(QUEUE, "queue"), (STACK, "stack")];

/// Both sides and their ratio, for puts and takes on both kinds.
pub fn all_sizes() {
    let mut ratios = Vec::new();
    println!("## Time per call\n");
    println!("Nanoseconds per call, begins and steps alike: compiled / fast = ratio.\n");
    println!("| kind | call of | w | n | nearly empty | half full | full |");
    println!("|---|---|---:|---:|---:|---:|---:|");
    for (kind, name) in KINDS {
        for width in [2, 4, 8, 16] {
            for workers in [2, 8, 32] {
                let settings = settings(kind, width, CELLS / width, workers);
                let fills = [Fill::Items(0), Fill::Items(CELLS / 2), Fill::Full];
                let measured = fills.map(|fill| measure(&workload(&settings, fill)));
                let row = |operation, times: fn(&Measured) -> Times| {
                    let cells = measured.each_ref().map(|one| cell(times(one)));
                    let cells = cells.join(" | ");
                    println!("| {name} | {operation} | {width} | {workers} | {cells} |");
                };
                row("put", |one| one.puts);
                row("take", |one| one.takes);
                ratios.extend(measured.iter().map(|one| one.puts.ratio));
                ratios.extend(measured.iter().map(|one| one.takes.ratio));
            }
        }
    }
    print_range(ratios);
}

/// One size grows, the others stay.
pub fn growth() {
    println!("## How it grows\n");
    grows(
        "w",
        [1, 2, 4, 8, 16],
        "n 8, 1,024 cells, 256 items",
        |kind, width| (settings(kind, width, CELLS / width, 8), Fill::Items(256)),
    );
    grows(
        "n",
        [1, 4, 8, 16, 32],
        "w 4, 1,024 cells, 256 items",
        |kind, workers| (settings(kind, 4, CELLS / 4, workers), Fill::Items(256)),
    );
    grows(
        "held",
        [0, 256, 1024, 2048, 3900],
        "w 4, n 8, 4,096 cells",
        |kind, held| (settings(kind, 4, 1024, 8), Fill::Items(held)),
    );
}

fn grows(what: &str, sizes: [u32; 5], fixed: &str, at: impl Fn(u32, u32) -> (Settings, Fill)) {
    println!("With {what} ({fixed}), nanoseconds per call, compiled / fast = ratio:\n");
    println!(
        "| kind | call of | {} | per {what} more |",
        sizes.map(|n| format!("{what} {n}")).join(" | ")
    );
    println!("|---|---|---:|---:|---:|---:|---:|---:|");
    for (kind, name) in KINDS {
        let measured = sizes.map(|size| {
            let (settings, fill) = at(kind, size);
            measure(&workload(&settings, fill))
        });
        let row = |operation, times: fn(&Measured) -> Times| {
            let cells = measured.each_ref().map(|one| cell(times(one))).join(" | ");
            let (first, last) = (times(&measured[0]), times(&measured[4]));
            let more = f64::from(sizes[4] - sizes[0]);
            let compiled = (last.compiled - first.compiled) / more;
            let fast = (last.fast - first.fast) / more;
            println!("| {name} | {operation} | {cells} | {compiled:.2} / {fast:.2} |");
        };
        row("put", |one| one.puts);
        row("take", |one| one.takes);
    }
    println!();
}

/// Depth 4, and of a queue as much more as it takes until all rows can be in windows, of
/// which 16 can be live; a stack shifts by half of it.
pub fn settings(kind: u32, width: u32, rows: u32, workers: u32) -> Settings {
    let (depth, shift) = match kind {
        QUEUE => {
            let depth = rows.div_ceil(MOST_LIVE).max(4);
            (depth, depth)
        }
        _ => (4, 2),
    };
    Settings {
        kind,
        width,
        depth,
        shift,
        rows,
        workers,
        stride: 0,
    }
}

/// The line under a table of ratios.
pub fn print_range(mut ratios: Vec<f64>) {
    ratios.sort_by(f64::total_cmp);
    let (least, most) = (ratios[0], ratios[ratios.len() - 1]);
    let median = ratios[ratios.len() / 2];
    println!("\nRatios: least {least:.2}, median {median:.2}, greatest {most:.2}.\n");
}

fn cell(times: Times) -> String {
    format!(
        "{:.0} / {:.0} = {:.2}",
        times.compiled, times.fast, times.ratio
    )
}
