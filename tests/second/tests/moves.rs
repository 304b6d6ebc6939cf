//! Moves between editions 0 and 1 (K6): the words, the order of the refusals, and that
//! the operations under way go on.

mod common;

use common::editions::{back, on, stand_in_order, Source};
use common::failed_commits::{failed_commits, set_failed_commits};
use common::states::{every_state_in, small_pools};
use common::{made_in, queue, stack, strided, worker_at, Numbers};
use second::phase::is_of_kind;
use second::{in_edition, layout, move_0_to_1, move_1_to_0};
use second::{Answer, Edition, Settings, QUEUE, STEP_LIMIT};
use second::{EMPTY, FULL, MOVING, PUT, TAKEN, TOO_SHORT, UNFIT, WRONG_EDITION};
use std::collections::BTreeSet;

const TOP: u32 = u32::MAX;
const JUNK: u32 = 0x5eed_5eed;

type Mover = fn(&[u32], &mut [u32]) -> u32;

/// The source's edition, the target's, and what moves.
const MOVES: [(Edition, Edition, Mover); 2] = [
    (Edition::Zero, Edition::One, move_0_to_1),
    (Edition::One, Edition::Zero, move_1_to_0),
];

/// All words of an area of this length, which held junk.
fn moved(mover: Mover, from: &[u32], len: usize) -> Vec<u32> {
    let mut to = vec![JUNK; len];
    assert_eq!(mover(from, &mut to), MOVING);
    to
}

fn made(settings: Settings) -> Vec<u32> {
    made_in(Edition::One, settings)
}

#[test]
fn the_first_run_by_hand_in_edition_0() {
    for settings in [queue(2, 1, 4, 2), queue(2, 2, 4, 2), stack(2, 2, 1, 4, 2)] {
        assert_eq!(settings.needed_words_in(Edition::Zero), 48);
        assert_eq!(settings.needed_words_in(Edition::One), 50);
        let mut words = vec![JUNK; 48];
        let short = in_edition::make(Edition::Zero, &mut words[..47], settings);
        assert_eq!(short, Answer::of(TOO_SHORT));
        assert_eq!(words, [JUNK; 48]);
        let made_0 = made_in(Edition::Zero, settings);
        assert_eq!(on(&made_0), made(settings));
        assert_eq!(moved(move_0_to_1, &made_0, 50), made(settings));
        assert_eq!(moved(move_1_to_0, &made(settings), 48), made_0);
        // Neither is fit for the other edition's calls.
        for (edition, words) in [(Edition::Zero, made(settings)), (Edition::One, made_0)] {
            let answer = in_edition::step(edition, &mut words.clone(), 0);
            assert_eq!(answer, Answer::of(UNFIT));
        }
    }
}

/// Two workers of a queue, in every word another number where fit allows it.
#[test]
fn every_word_by_hand() {
    let head = [0, 1, 1, 1, 2, 2, 106, 107, 108, 109, 0];
    let sub = [111, 110];
    let workers = [
        [4, 121, 0, 123, 124, 0, 126, 127],
        [13, 131, 0, 133, 134, 0, 136, 137],
    ];
    let cells = [140, 141, 142, 143];
    let mut zero = [&head[..], &[0], &sub, &workers.concat(), &cells].concat();
    let with_ninth = |ninth: [u32; 2]| {
        let [first, second] = workers;
        let parts = [
            &head[..],
            &[1],
            &sub,
            &first,
            &ninth[..1],
            &second,
            &ninth[1..],
            &cells,
        ];
        parts.concat()
    };
    let beyond = [JUNK; 3];
    let mut one = [&with_ninth([0, 0])[..], &beyond].concat();
    assert_eq!(moved(move_0_to_1, &zero, 39), one);
    one = with_ninth([128, TOP]);
    zero.extend(beyond);
    assert_eq!(moved(move_1_to_0, &one, 37), zero);
}

/// A fit image that no make leads to: junk wherever fit allows it.
fn image(numbers: &mut Numbers, edition: Edition, settings: Settings) -> Vec<u32> {
    let mut words = made_in(edition, settings);
    let mut junk = || [0, 1, 2, TOP, JUNK][numbers.below(5)].wrapping_add(numbers.below(3) as u32);
    let header = layout::STEPS_COUNTED..layout::STRIDE;
    for at in header.chain(settings.workers_at()..words.len()) {
        words[at] = junk();
    }
    words[layout::STEPS_COUNTED] %= STEP_LIMIT;
    let phases: Vec<u32> = (0..15).filter(|p| is_of_kind(settings.kind, *p)).collect();
    for sub in words[settings.subs_at()..settings.workers_at()].chunks_mut(layout::SUB_WORDS) {
        let items = numbers.below(settings.rows as usize + 1) as u32;
        let below = [0, 1, JUNK][numbers.below(3)];
        match settings.kind {
            QUEUE => sub.copy_from_slice(&[below + items, below]),
            _ => sub.copy_from_slice(&[items, below]),
        }
    }
    let workers = settings.workers_at()..settings.cells_at_in(edition);
    for worker in words[workers].chunks_mut(edition.worker_words()) {
        worker[layout::PHASE] = phases[numbers.below(phases.len())];
        worker[layout::INDEX] %= settings.width;
        worker[layout::SCAN] %= settings.width;
        worker[layout::SEEN] = [0, 1, JUNK][numbers.below(3)];
    }
    words
}

fn images(edition: Edition) -> impl Iterator<Item = Vec<u32>> {
    let mut numbers = Numbers(6);
    let pools = [
        queue(1, 1, 2, 1),
        strided(2, queue(3, 2, 4, 4)),
        stack(1, 2, 1, 4, 1),
        strided(1, stack(3, 2, 1, 5, 4)),
    ];
    let many = pools.into_iter().cycle().take(2_000);
    many.map(move |settings| image(&mut numbers, edition, settings))
}

/// With targets of the needed words and of more, which hold old ones.
#[test]
fn there_and_back_is_exact() {
    for zero in images(Edition::Zero) {
        for more in [0, 1, 9] {
            let one = on(&zero);
            let mut expected = one.clone();
            expected.extend(vec![JUNK; more]);
            assert_eq!(moved(move_0_to_1, &zero, expected.len()), expected);
            let mut expected_back = zero.clone();
            expected_back.extend(vec![JUNK; more]);
            assert_eq!(
                moved(move_1_to_0, &expected, zero.len() + more),
                expected_back
            );
            // What lies beyond the source's needed words is not moved.
            assert_eq!(moved(move_0_to_1, &expected_back, one.len()), one);
        }
    }
}

#[test]
fn back_and_on_again_has_ninth_words_of_0() {
    let mut dropped = 0;
    for one in images(Edition::One) {
        let zero = moved(move_1_to_0, &one, back(&one).len());
        assert_eq!(zero, back(&one));
        let mut expected = one.clone();
        let workers = one[layout::WORKERS] as usize;
        set_failed_commits(&mut expected, vec![0; workers]);
        assert_eq!(moved(move_0_to_1, &zero, one.len()), expected);
        dropped += failed_commits(&one)
            .iter()
            .filter(|ninth| **ninth > 0)
            .count();
    }
    assert!(dropped > 1_000, "{dropped}");
}

/// An edition that is not this one, each in turn.
fn other_editions(edition: Edition) -> impl Iterator<Item = u32> {
    let all = [0, 1, 2, 3, 7, 1 << 31, TOP];
    all.into_iter().filter(move |word| *word != edition.word())
}

/// The number that a move with these faults gets; a refusal changes nothing.
fn refusal(
    (old, new, mover): (Edition, Edition, Mover),
    settings: Settings,
    faults: &[&str],
    edition: u32,
) -> u32 {
    let mut from = Source::whole(made_in(old, settings));
    let mut to = vec![JUNK; settings.needed_words_in(new)];
    let last = worker_at(&from.words, settings.workers - 1);
    for fault in faults {
        if from.spoil(fault, &settings, last, edition) {
            continue;
        }
        match *fault {
            "target" => to.truncate(to.len() - 1),
            other => panic!("{other}"),
        }
    }
    let old_words = to.clone();
    let number = mover(from.lent(), &mut to);
    assert_eq!(to == old_words, number != MOVING);
    number
}

/// Each alone, and each two at once.
#[test]
fn refusals_stand_in_their_order() {
    for settings in [
        strided(1, queue(2, 2, 4, 3)),
        strided(1, stack(2, 2, 1, 4, 3)),
    ] {
        for direction in MOVES {
            assert_eq!(refusal(direction, settings, &[], 0), MOVING);
            for edition in other_editions(direction.0) {
                stand_in_order(&[("target", TOO_SHORT)], |faults| {
                    refusal(direction, settings, faults, edition)
                });
            }
        }
    }
}

/// By the number of words of the source and of the target, and by word 11.
#[test]
fn every_length_and_edition() {
    for settings in [queue(2, 1, 2, 3), strided(1, stack(2, 1, 1, 2, 2))] {
        for (old, new, mover) in MOVES {
            let [needed, wanted] = [old, new].map(|edition| settings.needed_words_in(edition));
            let mut from = made_in(old, settings);
            from.extend([JUNK; 4]);
            for edition in other_editions(old).chain([old.word()]) {
                from[layout::EDITION] = edition;
                for from_len in 0..=from.len() {
                    for to_len in [0, 11, 12, wanted - 1, wanted, wanted + 1, needed] {
                        let mut to = vec![JUNK; to_len];
                        let expected = match from_len {
                            0..=11 => TOO_SHORT,
                            _ if edition != old.word() => WRONG_EDITION,
                            _ if from_len < needed || to_len < wanted => TOO_SHORT,
                            _ => MOVING,
                        };
                        assert_eq!(mover(&from[..from_len], &mut to), expected);
                        let beyond = if expected == MOVING { wanted } else { 0 };
                        assert!(to[beyond..].iter().all(|word| *word == JUNK));
                    }
                }
            }
        }
    }
}

type Call = fn(Edition, &mut [u32], u32) -> Answer;

const CALLS: [Call; 3] = [
    |edition, words, worker| in_edition::begin_put(edition, words, worker, 7),
    in_edition::begin_take,
    in_edition::step,
];

/// The same call in both editions: the same answer, and the words correspond.
fn same_call(zero: &mut [u32], one: &mut [u32], call: Call, worker: u32) -> Answer {
    let answer = call(Edition::Zero, zero, worker);
    assert_eq!(call(Edition::One, one, worker), answer, "{zero:?}");
    assert_eq!(back(one), zero, "{answer:?}");
    answer
}

/// From every state of small pools each call, refused ones too, with any ninth words
/// and at the step limit: in the pool moved back, and in that one moved on again.
#[test]
fn every_state_goes_on() {
    for settings in small_pools() {
        let mut phases = BTreeSet::new();
        let mut answers = BTreeSet::new();
        every_state_in(Edition::One, settings, |words| {
            for (ninth, counted) in [(0, 0), (TOP, 5), (3, STEP_LIMIT - 1), (1, STEP_LIMIT)] {
                let mut one = words.to_vec();
                set_failed_commits(&mut one, [ninth, ninth]);
                one[layout::STEPS_COUNTED] = counted;
                let zero = moved(move_1_to_0, &one, back(&one).len());
                let again = moved(move_0_to_1, &zero, one.len());
                for one in [one, again] {
                    for worker in 0..=settings.workers {
                        for call in CALLS {
                            let answer =
                                same_call(&mut zero.clone(), &mut one.clone(), call, worker);
                            answers.insert(answer.number);
                        }
                    }
                }
            }
            let workers = settings.workers_at()..settings.cells_at_in(Edition::One);
            for worker in words[workers].chunks(Edition::One.worker_words()) {
                phases.insert(worker[layout::PHASE]);
            }
        });
        let all = (0..15).filter(|phase| is_of_kind(settings.kind, *phase));
        assert_eq!(phases, all.collect());
        assert_eq!(answers, [0, PUT, TAKEN, EMPTY, FULL, 24, 25, 26, 27].into());
    }
}

/// Long runs on from images that no make leads to, moved on and moved back, with
/// dispatches among the calls.
#[test]
fn images_go_on() {
    let mut numbers = Numbers(9);
    let mut answers = BTreeSet::new();
    let on_and_back = images(Edition::Zero).map(|zero| {
        let one = moved(move_0_to_1, &zero, on(&zero).len());
        (zero, one)
    });
    let back_alone = images(Edition::One).map(|one| {
        let zero = moved(move_1_to_0, &one, back(&one).len());
        (zero, one)
    });
    for (mut zero, mut one) in on_and_back.chain(back_alone) {
        let workers = zero[layout::WORKERS] as usize;
        for _ in 0..40 {
            let worker = numbers.below(workers) as u32;
            if numbers.below(10) == 0 {
                let count = numbers.below(9) as u32;
                let dispatched = in_edition::dispatch(Edition::One, &mut one, worker, count);
                let in_0 = in_edition::dispatch(Edition::Zero, &mut zero, worker, count);
                assert_eq!(in_0, dispatched);
                assert_eq!(back(&one), zero);
            } else {
                let call = CALLS[numbers.below(2 * CALLS.len()).min(2)];
                answers.insert(same_call(&mut zero, &mut one, call, worker).number);
            }
        }
    }
    assert_eq!(answers, [0, PUT, TAKEN, EMPTY, FULL, UNFIT, 25, 26].into());
}

/// A run from make in both editions, moved back and forth in the midst of it, each
/// time into an area that held the last one.
#[test]
fn a_run_moved_back_and_forth() {
    for settings in small_pools() {
        let mut numbers = Numbers(4);
        let mut zero = made_in(Edition::Zero, settings);
        let mut one = made(settings);
        let mut answers = BTreeSet::new();
        for call in 0..20_000 {
            let worker = numbers.below(2) as u32;
            let which = CALLS[numbers.below(2 * CALLS.len()).min(2)];
            answers.insert(same_call(&mut zero, &mut one, which, worker).number);
            let before = [zero.clone(), one.clone()];
            if call % 7 == 0 {
                assert_eq!(move_1_to_0(&one, &mut zero), MOVING);
                assert_eq!([zero.clone(), one.clone()], before);
            }
            if call % 11 == 0 {
                assert_eq!(move_0_to_1(&zero, &mut one), MOVING);
                assert_eq!([&zero, &one], [&before[0], &on(&before[0])]);
            }
        }
        assert_eq!(answers, [0, PUT, TAKEN, EMPTY, FULL, 25, 26].into());
    }
}
