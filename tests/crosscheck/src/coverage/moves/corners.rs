//! The corners of a move (K6): how many words the source and the target have, which
//! edition word 11 names, and what the words are.

use crate::coverage::fitness_in;
use crate::moved::Trip;
use second::phase::IDLE;
use second::phase::{is_past_window, Side, Stage};
use second::{layout, Edition, MAY_NOT_MOVE, MOVING, NO_WORKER, QUEUE, STACK, STEP_LIMIT};
use second::{TOO_SHORT, UNFIT, WRONG_EDITION};
use sides::{Move, MOVES};

/// From another edition than 0, than 1, and than 2.
const FROM_LATER: &[Move] = &[Move::From1To0, Move::From1To2, Move::From2To1];
const NOT_FROM_1: &[Move] = &[Move::From0To1, Move::From2To1];
const FROM_EARLIER: &[Move] = &[Move::From0To1, Move::From1To0, Move::From1To2];
const TO_2: &[Move] = &[Move::From1To2];
const FROM_2: &[Move] = &[Move::From2To1];
const OF_SIZES: &[Move] = &[Move::From1To2, Move::From2To1];

/// What a move got, and its answer's number.
pub struct Given<'a> {
    pub trip: Trip,
    pub from: &'a [u32],
    /// Before it.
    pub to: &'a [u32],
    pub number: u32,
}

/// The source's words or the target's.
#[derive(Clone, Copy, PartialEq, Eq, PartialOrd, Ord)]
pub enum Area {
    Source,
    Target,
}

pub const AREAS: [(Area, &str); 2] = [(Area::Source, "source"), (Area::Target, "target")];

pub type ByLength = (&'static str, fn(&Given, Area) -> bool);

/// By the number of words of an area, where nothing else is wrong.
pub const BY_LENGTH: [ByLength; 8] = [
    ("21 for no words", |given, area| is_short(given, area, 0)),
    ("21 for 11 words", |given, area| is_short(given, area, 11)),
    ("21 for 12 words", |given, area| is_short(given, area, 12)),
    ("21 a word short", |given, area| {
        is_short(given, area, needed(given, area) - 1)
    }),
    ("moved with the needed words", |given, area| {
        is_moved(given) && len(given, area) == needed(given, area)
    }),
    ("moved with a word more", |given, area| {
        is_moved(given) && len(given, area) == needed(given, area) + 1
    }),
    ("moved with many more", |given, area| {
        is_moved(given) && len(given, area) > needed(given, area) + 32
    }),
    ("as many as the other edition needs", |given, area| {
        let of_other = match area {
            Area::Source => needed(given, Area::Target),
            Area::Target => needed(given, Area::Source),
        };
        len(given, area) == of_other && (is_moved(given) || is_short(given, area, of_other))
    }),
];

pub struct Corner {
    pub name: &'static str,
    pub is_so: fn(&Given) -> bool,
    /// The moves that come to it.
    pub of: &'static [Move],
    /// And the kinds.
    pub kinds: &'static [u32],
}

const fn corner(name: &'static str, is_so: fn(&Given) -> bool) -> Corner {
    Corner {
        name,
        is_so,
        of: &MOVES,
        kinds: &[QUEUE, STACK],
    }
}

const fn of(name: &'static str, of: &'static [Move], is_so: fn(&Given) -> bool) -> Corner {
    Corner {
        of,
        ..corner(name, is_so)
    }
}

/// Between editions 1 and 2.
const fn of_queues(name: &'static str, is_so: fn(&Given) -> bool) -> Corner {
    Corner {
        kinds: &[QUEUE],
        ..of(name, OF_SIZES, is_so)
    }
}

const fn on(name: &'static str, is_so: fn(&Given) -> bool) -> Corner {
    Corner {
        of: &[Move::From0To1],
        ..corner(name, is_so)
    }
}

const fn back(name: &'static str, is_so: fn(&Given) -> bool) -> Corner {
    Corner {
        of: &[Move::From1To0],
        ..corner(name, is_so)
    }
}

pub const CORNERS: [Corner; 29] = [
    corner("31 for the target's edition", |given| {
        is_other(given, given.trip.which.editions()[1].word())
    }),
    of("31 for edition 0", FROM_LATER, |given| is_other(given, 0)),
    of("31 for edition 1", NOT_FROM_1, |given| is_other(given, 1)),
    of("31 for edition 2", FROM_EARLIER, |given| is_other(given, 2)),
    corner("31 for edition 7", |given| is_other(given, 7)),
    corner("31 for the greatest edition", |given| {
        is_other(given, u32::MAX)
    }),
    corner("31 for another edition", |given| {
        is_refused(given, WRONG_EDITION)
            && ![0, 1, 2, 7, u32::MAX].contains(&given.from[layout::EDITION])
    }),
    corner("31 in 12 words", |given| {
        is_refused(given, WRONG_EDITION) && given.from.len() == layout::HEADER_WORDS
    }),
    corner("31 for the target's edition in its needed words", |given| {
        is_other(given, given.trip.which.editions()[1].word())
            && given.from.len() == given.trip.needed()[1]
    }),
    corner("31 for a pool fit in the target's edition", |given| {
        let new = given.trip.which.editions()[1];
        is_other(given, new.word()) && fitness_in(new, given.from) == NO_WORKER
    }),
    corner("old words beyond the target's needed ones", |given| {
        is_moved(given)
            && given.to[given.trip.needed()[1]..]
                .iter()
                .any(|word| *word != 0)
    }),
    on("old words where all ninth ones will be", |given| {
        is_moved(given) && ninth_words(given, given.to).all(|word| word != 0)
    }),
    back("ninth words of 0 alone", |given| {
        is_moved(given) && ninth_words(given, given.from).all(|word| word == 0)
    }),
    back("a ninth word other than 0", |given| {
        is_moved(given) && ninth_words(given, given.from).any(|word| word != 0)
    }),
    back("no ninth word of 0", |given| {
        is_moved(given) && ninth_words(given, given.from).all(|word| word != 0)
    }),
    back("a ninth word of 2^32 - 1", |given| {
        is_moved(given) && ninth_words(given, given.from).any(|word| word == u32::MAX)
    }),
    corner("moved at the step limit", |given| {
        is_moved(given) && given.from[layout::STEPS_COUNTED] >= STEP_LIMIT
    }),
    corner("moved with a stride above 1", |given| {
        is_moved(given) && given.trip.settings.stride > 1
    }),
    corner("moved with 32 workers", |given| {
        is_moved(given) && given.trip.settings.workers == 32
    }),
    corner("an idle worker with other words than 0", |given| {
        is_moved(given) && is_odd_idle(given)
    }),
    of("ninth words that are kept", OF_SIZES, |given| {
        is_moved(given) && kept_ninth_words(given).any(|word| word != 0)
    }),
    of("old words where all sizes will be", TO_2, |given| {
        let sizes_at = given.trip.settings.sizes_at_in(Edition::Two);
        is_moved(given) && given.to[sizes_at..given.trip.needed()[1]].contains(&u32::MAX)
    }),
    of("a worker past its window phase", OF_SIZES, |given| {
        is_moved(given) && workers(given).any(|worker| is_past_window(worker[layout::PHASE]))
    }),
    of("a worker at its window phase", OF_SIZES, |given| {
        is_moved(given) && workers(given).any(|worker| is_at_window(worker[layout::PHASE]))
    }),
    of("rows from 2^32 - R on", OF_SIZES, |given| {
        is_moved(given) && has_high_rows(given)
    }),
    of("23 for what edition 2 alone asks for", FROM_2, |given| {
        is_refused(given, UNFIT) && is_wrong_with_sizes_alone(given)
    }),
    of_queues("33 and too short a target", |given| {
        is_refused(given, MAY_NOT_MOVE) && given.to.len() < given.trip.needed()[1]
    }),
    of_queues("33 with all else as it should be", |given| {
        is_refused(given, MAY_NOT_MOVE) && given.to.len() == given.trip.needed()[1]
    }),
    of_queues("moved with 16 windows", |given| {
        let [put, take] = [layout::PUT_WINDOW, layout::TAKE_WINDOW];
        is_moved(given) && given.from[put] - given.from[take] == 15 * given.trip.settings.depth
    }),
];

fn is_moved(given: &Given) -> bool {
    given.number == MOVING
}

fn is_refused(given: &Given, number: u32) -> bool {
    given.number == number
}

fn len(given: &Given, area: Area) -> usize {
    match area {
        Area::Source => given.from.len(),
        Area::Target => given.to.len(),
    }
}

fn needed(given: &Given, area: Area) -> usize {
    given.trip.needed()[area as usize]
}

/// 21 for an area of so many words. It is the target's only if the source is fit.
fn is_short(given: &Given, area: Area, words: usize) -> bool {
    let of_source = len(given, Area::Source) < needed(given, Area::Source);
    is_refused(given, TOO_SHORT) && of_source == (area == Area::Source) && len(given, area) == words
}

fn is_other(given: &Given, edition: u32) -> bool {
    is_refused(given, WRONG_EDITION) && given.from[layout::EDITION] == edition
}

/// Where they stand in these words of edition 1.
fn ninth_words<'a>(given: &Given, words: &'a [u32]) -> impl Iterator<Item = u32> + 'a {
    let (settings, edition) = (&given.trip.settings, Edition::One);
    let workers = &words[settings.workers_at()..settings.cells_at_in(edition)];
    let workers = workers.chunks(edition.worker_words());
    workers.map(|worker| worker[layout::FAILED_COMMITS])
}

/// Of the source's.
fn workers<'a>(given: &Given<'a>) -> impl Iterator<Item = &'a [u32]> + 'a {
    let settings = &given.trip.settings;
    let [old, _] = given.trip.which.editions();
    let all = &given.from[settings.workers_at()..settings.cells_at_in(old)];
    all.chunks(old.worker_words())
}

fn kept_ninth_words<'a>(given: &Given<'a>) -> impl Iterator<Item = u32> + 'a {
    workers(given).map(|worker| worker[layout::FAILED_COMMITS])
}

/// Of a source that was moved.
fn has_high_rows(given: &Given) -> bool {
    let settings = &given.trip.settings;
    let subs = &given.from[settings.subs_at()..settings.workers_at()];
    subs.iter().any(|word| *word > u32::MAX - settings.rows)
}

fn is_at_window(phase: u32) -> bool {
    [Side::Put, Side::Take]
        .map(|side| side.phase(Stage::Window))
        .contains(&phase)
}

/// With zeros in the words that edition 2 alone has, or with those of a pool of this size
/// from make, these words would be fit.
fn is_wrong_with_sizes_alone(given: &Given) -> bool {
    let settings = &given.trip.settings;
    let needed = given.trip.needed()[0];
    if given.from.len() < needed || !settings.within_limits() {
        return false;
    }
    let mut words = given.from[..needed].to_vec();
    let sizes_at = settings.sizes_at_in(Edition::Two);
    match settings.kind {
        STACK => words[sizes_at..].fill(0),
        _ => {
            words[sizes_at + layout::SIZE_SET] = 0;
            words[sizes_at + layout::NEXT_WIDTH] = settings.width;
            words[sizes_at + layout::NEXT_DEPTH] = settings.depth;
        }
    }
    fitness_in(Edition::Two, &words) == NO_WORKER
}

/// But for its index and its ninth word.
fn is_odd_idle(given: &Given) -> bool {
    let settings = &given.trip.settings;
    let [old, _] = given.trip.which.editions();
    let workers = settings.workers_at()..settings.cells_at_in(old);
    let mut workers = given.from[workers].chunks(old.worker_words());
    workers.any(|worker| {
        let seen = &worker[layout::SEEN_WINDOW..layout::FAILED_COMMITS];
        let others = seen.iter().chain([&worker[layout::VALUE]]);
        worker[layout::PHASE] == IDLE && others.into_iter().any(|word| *word != 0)
    })
}
