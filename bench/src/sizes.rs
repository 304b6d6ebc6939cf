//! Calls beside windows with sizes of their own (K8): a queue whose put windows are
//! narrowed at a search's end, and one of narrow and wide windows in turn.

use crate::measure::{measure, Measured, Times};
use crate::tables::{print_range, settings, CELLS};
use crate::workload::{held, sized, Workload};
use second::{Settings, Size, QUEUE};

/// By name: the sizes that are set in turn, and after how many puts each.
type Sort = (&'static str, fn(&Settings) -> Vec<Size>, u32);

const SORTS: [Sort; 3] = [
    ("no size set", |_| Vec::new(), 1),
    ("narrowed once", |settings| vec![narrow(settings)], u32::MAX),
    (
        "narrow and wide in turn",
        |settings| vec![narrow(settings), Size::of_pool(settings)],
        4,
    ),
];

/// Of one sub.
fn narrow(settings: &Settings) -> Size {
    Size {
        width: 1,
        ..Size::of_pool(settings)
    }
}

pub fn table() {
    let mut ratios = Vec::new();
    println!("## Windows of several sizes\n");
    println!(
        "A queue that holds 64 items, its puts with the size calls among them, and the takes after them: \
         nanoseconds per call, compiled / fast = ratio.\n"
    );
    println!("| sizes | w | n | calls of puts | calls of takes |");
    println!("|---|---:|---:|---:|---:|");
    for (name, sizes, every) in SORTS {
        for (width, workers) in [(2, 2), (4, 8), (16, 32)] {
            let settings = settings(QUEUE, width, CELLS / width, workers);
            let Measured { puts, takes } = measure(&of(&settings, &sizes(&settings), every));
            println!(
                "| {name} | {width} | {workers} | {} | {} |",
                cell(puts),
                cell(takes)
            );
            ratios.extend([puts.ratio, takes.ratio]);
        }
    }
    print_range(ratios);
}

fn of(settings: &Settings, sizes: &[Size], every: u32) -> Workload {
    sized(settings, held(settings, 64), sizes, every)
}

fn cell(times: Times) -> String {
    let Times {
        compiled,
        fast,
        ratio,
    } = times;
    format!("{compiled:.0} / {fast:.0} = {ratio:.2}")
}
