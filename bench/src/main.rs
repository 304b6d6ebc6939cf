//! The compiled library's time per call beside that of `fast`, the second
//! implementation made fast, as Markdown for a page in docs. With `distance`, what
//! a distance costs alone; with `reading`, the last table; with `sizes`, that of windows of several
//! sizes; with `strides` and with
//! `narrowing`, the figures of two other pages, which tell how often commits fail, and what
//! narrow windows do at a search's end.

mod again;
mod busy;
mod commit;
mod dispatching;
mod distance;
mod gather;
mod image;
mod loops;
mod machine;
mod measure;
mod narrowing;
mod reading;
#[path = "../../tests/crosscheck/src/rng.rs"]
#[allow(dead_code)] // The cross-check wants more kinds of numbers.
mod rng;
mod shares;
mod side;
mod sizes;
mod spacers;
mod strides;
mod tables;
mod walks;
mod workload;

fn main() {
    let words: Vec<String> = std::env::args().skip(1).collect();
    match words.iter().map(String::as_str).collect::<Vec<_>>()[..] {
        [] => all(),
        ["distance"] => distances(),
        ["reading"] => reading::table(),
        ["strides"] => strides::tables(),
        ["narrowing"] => narrowing::tables(),
        ["sizes"] => sizes::table(),
        _ => eprintln!("bench [distance|reading|sizes|strides|narrowing]"),
    }
}

fn all() {
    println!("# Benchmark\n");
    println!("- Machine: {}, {}", machine::uname(), machine::cpu());
    println!("- Date: {}", machine::date());
    println!(
        "- Sides: the compiled library, called as C calls it; `fast`, the second implementation"
    );
    println!("  made fast, with the same checks and the same answers, called as Rust calls it.");
    println!(
        "- Each number is the median of {} rounds; the sides take turns, and make the",
        measure::ROUNDS
    );
    println!("  same calls on the same words, which are compared afterwards.");
    println!(
        "- Workers take turns with whole operations, each from its begin to its answer, but for"
    );
    println!(
        "  dispatches. A take's last step counts its distance over all held items; one item in"
    );
    println!("  ten is a spacer, of value 0, which does not count.\n");
    tables::all_sizes();
    tables::growth();
    sizes::table();
    dispatching::table();
    distances();
    reading::table();
}

fn distances() {
    distance::table();
    shares::table();
    gather::table();
}
