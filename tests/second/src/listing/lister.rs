//! The run lister: a line for each answer 1 to 4 and each refusal. It has paper 01's stop
//! with 30, as the lister under test has, which no run file reaches. What it comes to can
//! be watched.

use super::replay::{Called, Replay};
use super::{Fault, Stop, ABOVE_BOUND};
use crate::answer::{Answer, MOVING, TAKEN};
use crate::pool::edition::Edition;
use crate::pool::settings::Settings;
use std::io::{self, BufWriter, Read, Write};

/// A take in a listing, its distance beside the bound.
#[derive(Clone, Copy, Debug, PartialEq, Eq)]
pub struct ListedTake {
    pub position: u64,
    /// The pool's.
    pub settings: Settings,
    pub distance: u32,
    /// Demand 3's: of a queue by the take's own window's sizes (K8).
    pub bound: u32,
    /// The listing stops there, with 30 in place of its answer.
    pub stopped: bool,
}

/// Lists the run file that `input` yields, of a pool of this edition.
pub fn list<R: Read, W: Write>(edition: Edition, input: R, output: W) -> io::Result<()> {
    list_watched(edition, input, output, |_| {})
}

/// The same, with a look at each take.
pub fn list_watched<R: Read, W: Write>(
    edition: Edition,
    input: R,
    output: W,
    watch: impl FnMut(&ListedTake),
) -> io::Result<()> {
    let mut output = BufWriter::new(output);
    match run(edition, input, &mut output, |called| called.bound, watch) {
        Ok(()) => {}
        Err(Stop::At(Fault { position, number })) => {
            print(&mut output, position, 0, &Answer::of(number))?;
        }
        Err(Stop::Io(error)) => return Err(error),
    }
    output.flush()
}

/// With the bound that `bound` gives each call.
fn run<R: Read, W: Write>(
    edition: Edition,
    input: R,
    output: &mut W,
    bound: impl Fn(&Called) -> u32,
    mut watch: impl FnMut(&ListedTake),
) -> Result<(), Stop> {
    let mut replay = Replay::open(edition, input)?;
    let mut worst = 0;
    while let Some(called) = replay.next_call()? {
        let bound = bound(&called);
        let Called {
            position,
            worker,
            answer,
            ..
        } = called;
        if answer.number == TAKEN {
            // By the distance, as number 30 says: it counts no spacers (K4).
            let stopped = answer.distance > bound;
            watch(&ListedTake {
                position,
                settings: replay.settings,
                distance: answer.distance,
                bound,
                stopped,
            });
            // "A 30 is printed in place of that take's answer", and the listing stops.
            if stopped {
                print(output, position, worker, &Answer::of(ABOVE_BOUND))?;
                return Ok(());
            }
        }
        worst = worst.max(answer.distance);
        if answer.number != MOVING {
            print(output, position, worker, &answer)?;
        }
    }
    writeln!(output, "held {} worst {}", replay.pool().held(), worst)?;
    Ok(())
}

fn print<W: Write>(output: &mut W, position: u64, worker: u32, answer: &Answer) -> io::Result<()> {
    let Answer {
        number,
        value,
        sub,
        row,
        stamp,
        distance,
    } = answer;
    writeln!(
        output,
        "{position} {number} {worker} {value} {sub} {row} {stamp} {distance}"
    )
}

/// The stop, which no file comes to by its takes' own bounds: here all have a smaller one.
#[cfg(test)]
mod tests {
    use super::*;

    /// "Line w 2, d 2, R 4: worker 0 puts twice, worker 1 puts and takes": distance 2.
    /// Then worker 0 takes, distance 0.
    fn run_by_hand() -> Vec<u8> {
        let mut words = vec![0x10002042, 0x20001004];
        for (worker, begin) in [
            (0, 0x30000005),
            (0, 0x30000006),
            (1, 0x30400007),
            (1, 0x40400000),
            (0, 0x40000000),
        ] {
            words.push(begin);
            words.extend([0x50000000 | worker << 22; 3]);
        }
        words.push(0x60000000);
        words
            .iter()
            .flat_map(|word: &u32| word.to_le_bytes())
            .collect()
    }

    /// The listing by this bound, and each take's distance and whether it stops there.
    fn listed_by(bound: u32) -> (String, Vec<(u32, bool)>) {
        let (file, mut output, mut takes) = (run_by_hand(), Vec::new(), Vec::new());
        let watch = |take: &ListedTake| {
            assert_eq!(take.bound, bound);
            takes.push((take.distance, take.stopped));
        };
        let ended = run(Edition::CURRENT, &file[..], &mut output, |_| bound, watch);
        assert!(ended.is_ok(), "the file is whole");
        (String::from_utf8(output).expect("digits and words"), takes)
    }

    const PUTS: &str = "5 1 0 5 0 1 1 0\n9 1 0 6 0 2 2 0\n13 1 1 7 1 1 3 0\n";

    #[test]
    fn a_distance_above_the_bound_is_listed_as_30_and_ends_the_listing() {
        for bound in [0, 1] {
            let expected = format!("{PUTS}17 30 1 0 0 0 0 0\n");
            assert_eq!(listed_by(bound), (expected, vec![(2, true)]));
        }
    }

    #[test]
    fn a_distance_at_the_bound_is_a_take_like_any() {
        for bound in [2, 3] {
            let expected = format!("{PUTS}17 2 1 7 1 1 3 2\n21 2 0 5 0 1 1 0\nheld 1 worst 2\n");
            assert_eq!(listed_by(bound), (expected, vec![(2, false), (0, false)]));
        }
    }
}
