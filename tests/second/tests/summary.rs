//! The summary: that of the paper's example byte for byte, what stands in it of a
//! faulty file, and that it tells the same as the listing.

mod common;

use common::run_file::{a_lost_commit, a_take_at_the_bound, bytes, EXAMPLE, REFUSED_CALLS};

fn summary(file: &[u8]) -> String {
    let mut output = Vec::new();
    second::summarize(file, &mut output).expect("memory can be read and written");
    String::from_utf8(output).expect("digits and words")
}

/// Of a file without a pool.
fn nothing_but(first_line: &str, words: usize) -> String {
    format!(
        "{first_line}\nwords {words}\nput 0 taken 0 empty 0 full 0 refused 0\nheld 0\n\
         worst 0 bound 0\nlost 0\nsteps 0 of 4000000000\n"
    )
}

/// Of the example up to its word at `position`.
fn of_example(first_line: &str, position: usize) -> String {
    let [put, taken] = [5, 9].map(|last_step| u32::from(position > last_step));
    let before = &EXAMPLE[..position];
    let steps = before.iter().filter(|word| **word >> 28 == 5).count();
    format!(
        "{first_line}\nwords {position}\nput {put} taken {taken} empty 0 full 0 refused 0\n\
         held {}\nworst 0 bound 0\nlost 0\nsteps {steps} of 4000000000\n",
        put - taken
    )
}

/// The words of a whole file come to these lines after the second.
fn comes_to(words: &[u32], lines: &str) {
    let expected = format!("whole\nwords {}\n{lines} of 4000000000\n", words.len());
    assert_eq!(summary(&bytes(words)), expected);
}

#[test]
fn the_example() {
    let expected = "whole\nwords 11\nput 1 taken 1 empty 0 full 0 refused 0\nheld 0\n\
                    worst 0 bound 0\nlost 0\nsteps 6 of 4000000000\n";
    assert_eq!(summary(&bytes(&EXAMPLE)), expected);
    assert_eq!(of_example("whole", 11), expected);
}

#[test]
fn an_empty_file() {
    assert_eq!(summary(&[]), nothing_but("faulty 28 at 0", 0));
}

/// In the first word, in the second, and after some.
#[test]
fn a_cut_at_every_byte() {
    let file = bytes(&EXAMPLE);
    for len in 0..file.len() {
        let position = len / 4;
        let expected = of_example(&format!("faulty 28 at {position}"), position);
        assert_eq!(summary(&file[..len]), expected, "cut at byte {len}");
    }
}

#[test]
fn bytes_after_the_end() {
    for more in 1..6 {
        let mut file = bytes(&EXAMPLE);
        file.extend(vec![0; more]);
        let expected = of_example("faulty 29 at 11", 11);
        assert_eq!(summary(&file), expected, "{more} bytes after the end");
    }
}

#[test]
fn a_word_out_of_place() {
    for position in 0..EXAMPLE.len() {
        let mut words = EXAMPLE;
        words[position] |= 1 << 31;
        let expected = of_example(&format!("faulty 29 at {position}"), position);
        assert_eq!(summary(&bytes(&words)), expected, "word {position}");
    }
}

/// A fault after it changes nothing, and one in word 1 stands before it.
#[test]
fn settings_off_limits() {
    let header = [0x10001022, 0x20000801]; // R 1
    for rest in [vec![], vec![0x60000000], vec![0xffffffff]] {
        let words = [&header, &rest[..]].concat();
        assert_eq!(summary(&bytes(&words)), nothing_but("faulty 22 at 1", 1));
    }
    let expected = nothing_but("faulty 29 at 1", 1);
    assert_eq!(summary(&bytes(&[header[0], 0x20020801])), expected);
    let expected = nothing_but("faulty 28 at 1", 1);
    assert_eq!(summary(&bytes(&header[..1])), expected);
}

#[test]
fn refused_calls() {
    let lines = "put 0 taken 0 empty 0 full 0 refused 4\nheld 0\nworst 0 bound 0\nlost 0\nsteps 0";
    comes_to(&REFUSED_CALLS, lines);
}

#[test]
fn a_lost_commit_of_one_worker() {
    for stride in 0..3 {
        let lines =
            "put 2 taken 0 empty 0 full 0 refused 0\nheld 2\nworst 0 bound 2\nlost 1\nsteps 9";
        comes_to(&a_lost_commit(stride), lines);
    }
}

/// Three puts at commit in one sub: worker 1 loses once, worker 2 twice.
fn lost_commits_of_two_workers() -> Vec<u32> {
    let mut words = vec![0x10004081, 0x20001808]; // queue w 1, d 4, R 8, n 3
    words.extend([0x30000001, 0x30400002, 0x30800003]);
    let order = [0, 0, 1, 1, 2, 2, 0, 1, 2, 1, 1, 2, 2, 1, 2, 2, 2, 2];
    words.extend(order.map(|worker| 0x50000000 | worker << 22));
    words.push(0x60000000);
    words
}

/// A take that finds nothing, four puts, and a fifth that finds no room.
fn an_empty_and_a_full() -> Vec<u32> {
    let mut words = vec![0x10001022, 0x20000802]; // queue w 2, d 1, R 2, n 1
    for (begin, steps) in [
        (0x40000000, 5),
        (0x30000001, 3),
        (0x30000002, 4),
        (0x30000003, 7),
        (0x30000004, 4),
        (0x30000005, 4),
    ] {
        words.push(begin);
        words.extend(vec![0x50000000; steps]);
    }
    words.push(0x60000000);
    words
}

#[test]
fn lost_commits_of_all_workers_together() {
    let lines = "put 3 taken 0 empty 0 full 0 refused 0\nheld 3\nworst 0 bound 0\nlost 3\nsteps 18";
    comes_to(&lost_commits_of_two_workers(), lines);
}

#[test]
fn empty_and_full() {
    let lines = "put 4 taken 0 empty 1 full 1 refused 0\nheld 4\nworst 0 bound 1\nlost 0\nsteps 27";
    comes_to(&an_empty_and_a_full(), lines);
}

/// A spacer is held like any item; no distance counts it.
#[test]
fn worst_and_bound() {
    for (values, worst) in [([5, 6, 7], 2), ([0, 6, 0], 1), ([0, 0, 7], 0)] {
        let lines = format!(
            "put 3 taken 1 empty 0 full 0 refused 0\nheld 2\nworst {worst} bound 2\nlost 0\nsteps 12"
        );
        comes_to(&a_take_at_the_bound(values), &lines);
    }
}

/// (w - 1) (2d + 2s).
#[test]
fn the_bound_of_a_stack() {
    let words = [0x10081043, 0x20000804, 0x60000000]; // stack w 3, d 2, s 1, R 4, n 1
    let lines = "put 0 taken 0 empty 0 full 0 refused 0\nheld 0\nworst 0 bound 12\nlost 0\nsteps 0";
    comes_to(&words, lines);
}

/// What the listing tells of it: the first line, the counts of each number, and in a
/// whole file what is held and the worst.
fn told_by_listing(file: &[u8]) -> [String; 3] {
    let mut output = Vec::new();
    second::list(file, &mut output).expect("memory can be read and written");
    let listing = String::from_utf8(output).expect("digits and words");
    let (mut first, mut last) = (String::new(), String::new());
    let mut counts = [0; 5];
    for line in listing.lines() {
        let parts: Vec<&str> = line.split(' ').collect();
        match parts[..] {
            ["held", held, "worst", worst] => {
                first = "whole".to_string();
                last = format!("held {held} worst {worst}");
            }
            [position, number @ ("22" | "28" | "29"), ..] => {
                first = format!("faulty {number} at {position}");
            }
            [_, number, ..] => {
                let number: usize = number.parse().expect("a number");
                counts[number.min(5) - 1] += 1;
            }
            _ => panic!("no line of a listing: {line}"),
        }
    }
    let [put, taken, empty, full, refused] = counts;
    let counts = format!("put {put} taken {taken} empty {empty} full {full} refused {refused}");
    [first, counts, last]
}

#[test]
fn the_listing_tells_the_same() {
    let runs = [
        EXAMPLE.to_vec(),
        REFUSED_CALLS.to_vec(),
        a_lost_commit(2),
        lost_commits_of_two_workers(),
        an_empty_and_a_full(),
        a_take_at_the_bound([5, 6, 7]),
    ];
    for file in runs.map(|words| bytes(&words)) {
        let cut = (0..file.len()).map(|len| file[..len].to_vec());
        let damaged = (0..8 * file.len()).map(|bit| {
            let mut damaged = file.clone();
            damaged[bit / 8] ^= 1 << (bit % 8);
            damaged
        });
        for file in cut.chain(damaged).chain([file.clone()]) {
            let summary = summary(&file);
            let lines: Vec<&str> = summary.lines().collect();
            let [first, counts, last] = told_by_listing(&file);
            assert_eq!([lines[0], lines[2]], [&first, &counts], "{file:02x?}");
            if first == "whole" {
                let (worst, _) = lines[4].split_once(" bound").expect("a bound");
                assert_eq!(format!("{} {worst}", lines[3]), last, "{file:02x?}");
            }
        }
    }
}
