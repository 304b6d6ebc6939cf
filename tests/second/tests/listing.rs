//! The run lister: the paper's example byte for byte, where 22, 28 and 29 stand, and
//! how near its takes come to the stop with 30.

mod common;

use common::run_file::{a_lost_commit, a_take_at_the_bound, bytes, EXAMPLE, REFUSED_CALLS};
use second::{Edition, ListedTake};
use std::io;

fn listing(file: &[u8]) -> String {
    let mut output = Vec::new();
    second::list(file, &mut output).expect("memory can be read and written");
    String::from_utf8(output).expect("digits and words")
}

#[test]
fn the_example() {
    let expected = "5 1 0 7 0 1 1 0\n9 2 0 7 0 1 1 0\nheld 0 worst 0\n";
    assert_eq!(listing(&bytes(&EXAMPLE)), expected);
}

/// Lines that the example prints when it is cut before word `position`.
fn lines_before(position: usize) -> &'static str {
    match position {
        0..=5 => "",
        6..=9 => "5 1 0 7 0 1 1 0\n",
        _ => "5 1 0 7 0 1 1 0\n9 2 0 7 0 1 1 0\n",
    }
}

#[test]
fn a_cut_at_every_byte() {
    let file = bytes(&EXAMPLE);
    for len in 0..file.len() {
        let position = len / 4;
        let expected = format!("{}{position} 28 0 0 0 0 0 0\n", lines_before(position));
        assert_eq!(listing(&file[..len]), expected, "cut at byte {len}");
    }
}

#[test]
fn bytes_after_the_end() {
    for more in 1..6 {
        let mut file = bytes(&EXAMPLE);
        file.extend(vec![0; more]);
        let expected = format!("{}11 29 0 0 0 0 0 0\n", lines_before(11));
        assert_eq!(listing(&file), expected, "{more} bytes after the end");
    }
}

#[test]
fn a_kind_out_of_place_and_a_spare_bit() {
    for position in 0..EXAMPLE.len() {
        let right = EXAMPLE[position] >> 28;
        for kind in 0..16 {
            let calls = (3..=6).contains(&kind) || kind == 8 && Edition::CURRENT.has_sizes();
            let fits_too = position > 1 && calls;
            if kind == right || fits_too {
                continue;
            }
            let mut words = EXAMPLE;
            words[position] = kind << 28 | (words[position] & 0x0fff_ffff);
            let expected = format!("{}{position} 29 0 0 0 0 0 0\n", lines_before(position));
            assert_eq!(
                listing(&bytes(&words)),
                expected,
                "kind {kind} at {position}"
            );
        }
    }
    let spare = [
        (0, 24),
        (0, 27),
        (1, 17),
        (1, 27),
        (3, 0),
        (3, 21),
        (6, 0),
        (6, 21),
        (10, 0),
    ];
    for (position, bit) in spare.into_iter().chain([(10, 22), (10, 27)]) {
        let mut words = EXAMPLE;
        words[position] |= 1 << bit;
        let expected = format!("{}{position} 29 0 0 0 0 0 0\n", lines_before(position));
        assert_eq!(
            listing(&bytes(&words)),
            expected,
            "bit {bit} of word {position}"
        );
    }
}

#[test]
fn settings_off_limits_stop_at_position_1() {
    let headers = [
        (0x10001020, 0x20000802), // w 0
        (0x10001001, 0x20000802), // d 0
        (0x10000021, 0x20000802), // s 0
        (0x10002021, 0x20000802), // s 2, d 1
        (0x10001021, 0x20000800), // R 0
        (0x10001021, 0x20000801), // R 1
        (0x10001021, 0x20000002), // n 0
        (0x10001021, 0x20010802), // n 33
        (0x10101021, 0x20000802), // stride 1, w 1
    ];
    // Queue, d 2, R 5: where all windows have the pool's depth.
    let no_multiple = Some((0x10002041, 0x20000805)).filter(|_| !Edition::CURRENT.has_sizes());
    for (first, second) in headers.into_iter().chain(no_multiple) {
        // A word after the header changes nothing, not even a faulty one.
        for rest in [vec![], vec![0x60000000], vec![0xffffffff]] {
            let words = [vec![first, second], rest].concat();
            assert_eq!(listing(&bytes(&words)), "1 22 0 0 0 0 0 0\n");
        }
    }
    // Word 1 is read first: a fault in it stands before the settings.
    assert_eq!(
        listing(&bytes(&[0x10001020, 0x20020802])),
        "1 29 0 0 0 0 0 0\n"
    );
    assert_eq!(listing(&bytes(&[0x10001020])), "1 28 0 0 0 0 0 0\n");
}

/// Bits 20-23 are the stride, 24-27 are spare.
#[test]
fn every_value_of_the_first_words_top_bits() {
    for width in 1..=16 {
        for top_bits in 0..1 << 8 {
            let (stride, spare) = (top_bits & 15, top_bits >> 4);
            let words = [0x10001020 | width | top_bits << 20, 0x20000802, 0x60000000];
            let expected = if spare != 0 {
                "0 29 0 0 0 0 0 0\n"
            } else if stride >= width {
                "1 22 0 0 0 0 0 0\n"
            } else {
                "held 0 worst 0\n"
            };
            assert_eq!(listing(&bytes(&words)), expected, "{:08x}", words[0]);
        }
    }
}

#[test]
fn a_lost_commit_by_the_stride() {
    for (stride, sub) in [(0, 1), (1, 1), (2, 2)] {
        let expected = format!("8 1 0 20 0 1 1 0\n12 1 3 23 {sub} 1 2 0\nheld 2 worst 0\n");
        assert_eq!(listing(&bytes(&a_lost_commit(stride))), expected);
    }
}

#[test]
fn refused_calls_are_listed_and_the_run_goes_on() {
    let expected = "2 26 0 0 0 0 0 0\n3 24 1 0 0 0 0 0\n5 25 0 0 0 0 0 0\n\
                    6 24 63 0 0 0 0 0\nheld 0 worst 0\n";
    assert_eq!(listing(&bytes(&REFUSED_CALLS)), expected);
}

#[test]
fn held_and_worst() {
    let expected = "5 1 0 5 0 1 1 0\n9 1 0 6 0 2 2 0\n13 1 1 7 1 1 3 0\n\
                    17 2 1 7 1 1 3 2\nheld 2 worst 2\n";
    assert_eq!(listing(&bytes(&a_take_at_the_bound([5, 6, 7]))), expected);
}

/// A spacer is listed and held like any item; no distance counts it.
#[test]
fn spacers_are_held_and_not_in_the_worst() {
    let expected = "5 1 0 0 0 1 1 0\n9 1 0 6 0 2 2 0\n13 1 1 0 1 1 3 0\n\
                    17 2 1 0 1 1 3 1\nheld 2 worst 1\n";
    assert_eq!(listing(&bytes(&a_take_at_the_bound([0, 6, 0]))), expected);
    let expected = "5 1 0 0 0 1 1 0\n9 1 0 0 0 2 2 0\n13 1 1 7 1 1 3 0\n\
                    17 2 1 7 1 1 3 0\nheld 2 worst 0\n";
    assert_eq!(listing(&bytes(&a_take_at_the_bound([0, 0, 7]))), expected);
}

/// Each take's distance and bound; none of them is above it, and the listing goes on.
fn beside_the_bound(words: &[u32]) -> Vec<(u32, u32)> {
    let mut takes = Vec::new();
    let watch = |take: &ListedTake| {
        assert!(!take.stopped, "{take:?}");
        takes.push((take.distance, take.bound));
    };
    second::list_watched(&bytes(words)[..], io::sink(), watch).expect("memory can be read");
    takes
}

/// Of a queue that is (w - 1) x d, here 2, whatever is passed over; of a stack
/// (w - 1) x (2d + 2s), here 4.
#[test]
fn takes_beside_the_bound() {
    for (values, distance) in [([5, 6, 7], 2), ([0, 6, 0], 1), ([0, 0, 7], 0)] {
        let words = a_take_at_the_bound(values);
        assert_eq!(beside_the_bound(&words), [(distance, 2)]);
    }
    // Stack w 2, d 1, s 1, R 2, n 1: a put, and its take.
    let mut words = vec![0x10081022, 0x20000802];
    for begin in [0x30000007, 0x40000000] {
        words.push(begin);
        words.extend([0x50000000; 4]);
    }
    words.push(0x60000000);
    assert_eq!(beside_the_bound(&words), [(0, 4)]);
}

/// K8: by its own window's sizes. Queue w 2, d 1, R 8, n 2; the second window has depth 4
/// and holds four items in sub 0 before the one in sub 1.
#[test]
fn takes_beside_the_bound_of_their_own_windows() {
    let mut words = vec![0x10001022, 0x20001008, 8 << 28 | 4 << 5 | 2];
    let [put, take] = [0x30000007, 0x40000000];
    for (worker, begin, steps) in [
        (0, put, 3),
        (1, put, 3),
        (0, put, 7),
        (0, put, 3),
        (0, put, 3),
        (0, put, 3),
        (1, put, 3),
        (0, take, 3),
        (1, take, 3),
        (1, take, 7),
    ] {
        words.push(begin | worker << 22);
        words.extend(vec![0x50000000 | worker << 22; steps]);
    }
    words.push(0x60000000);
    assert_eq!(beside_the_bound(&words), [(0, 1), (0, 1), (4, 4)]);
}
