//! What narrowing does at a search's end: the figures of a page in docs. There is no clock
//! in them, so that they come out the same every time.

mod search;

use search::{search, Ended, Order, Part};
use second::{Settings, Size, QUEUE};

/// The pool of all runs.
const SETTINGS: Settings = Settings {
    kind: QUEUE,
    width: 16,
    depth: 4,
    shift: 4,
    rows: 64,
    workers: 32,
    stride: 3,
};

/// What the put windows are set to where the search ends, and then nothing, for the same run
/// without it.
const SIZES: [Option<Size>; 8] = [
    None,
    size(16, 1),
    size(8, 4),
    size(4, 4),
    size(4, 1),
    size(2, 4),
    size(1, 4),
    size(1, 1),
];

/// How many workers go on after it.
const AT_THE_END: [u32; 3] = [2, 8, 32];

const ORDERS: [(&str, Order); 2] = [
    ("round robin", Order::RoundRobin),
    ("at random", Order::AtRandom),
];

const fn size(width: u32, depth: u32) -> Option<Size> {
    Some(Size { width, depth })
}

pub fn tables() {
    print_text();
    for (order_name, order) in ORDERS {
        for workers in AT_THE_END {
            let runs = SIZES.map(|size| (size, search(&SETTINGS, order, workers, size)));
            println!("\n### {order_name}, {workers} workers at the end\n");
            print_before(&runs[0].1);
            print_sizes(&runs);
        }
    }
}

fn print_text() {
    let Settings {
        width,
        depth,
        rows,
        workers,
        stride,
        ..
    } = SETTINGS;
    println!(
        "\
## Figures

- The pool: a queue of width {width}, depth {depth}, {rows} rows, {workers} workers, stride {stride}.
- The search: all workers are busy all the time, and the pool holds about {} items: a worker
  whose operation has ended begins a put with a chance that falls as more are held, else a
  take. {},000 operations.
- The end: `pool_set_size` is called once, or not at all, and so many workers go on; the others
  end what they are about. The pool comes down to about {} items. First the items that are held
  are taken, from windows as wide as ever: the change. After it, {},000 operations more.
- The drain: the others idle, worker 0 puts up to those {} items, or as many as there is room for,
  and takes until it is answered \"empty\".
- Distance: of takes, the mean and the greatest, and (width - 1) x depth, the bound. Failed
  commits, steps and fulls: for each operation that ended; those of the drain for each take, and
  for the \"empty\" at its end.
- Round robin: all busy workers step in turn, by number. At random: any busy one steps next. What
  is random comes from a fixed seed, the same for all sizes.",
        search::HELD,
        search::OPERATIONS / 1_000,
        search::HELD_AT_THE_END,
        search::OPERATIONS / 1_000,
        search::HELD_AT_THE_END,
    );
}

/// The search itself is the same whatever comes after.
fn print_before(ended: &Ended) {
    let before = &ended.parts[Part::Search as usize];
    println!(
        "The search: mean distance {:.1}, greatest {} of {}; {:.1} steps per operation, {:.2} failed \
         commits.\n",
        before.mean_distance(),
        before.greatest,
        Size::of_pool(&SETTINGS).distance_bound(),
        before.per_operation(before.steps),
        before.per_operation(before.failed),
    );
}

fn print_sizes(runs: &[(Option<Size>, Ended)]) {
    println!(
        "| size | bound | operations of the change | mean distance in it | mean distance after | greatest | \
         steps | failed commits | fulls | drain: steps of a take | of the empty |"
    );
    println!("|---|---:|---:|---:|---:|---:|---:|---:|---:|---:|---:|");
    for (size, ended) in runs {
        let name = match size {
            None => "not narrowed".to_string(),
            Some(Size { width, depth }) => format!("{width} x {depth}"),
        };
        let own = size.unwrap_or(Size::of_pool(&SETTINGS));
        let [_, change, after] = &ended.parts;
        println!(
            "| {name} | {} | {} | {:.1} | {:.2} | {} | {:.1} | {:.2} | {:.3} | {:.1} | {} |",
            own.distance_bound(),
            change.ended,
            change.mean_distance(),
            after.mean_distance(),
            after.greatest,
            after.per_operation(after.steps),
            after.per_operation(after.failed),
            after.per_operation(after.fulls),
            ended.steps_of_a_take,
            ended.steps_of_the_empty,
        );
    }
}
