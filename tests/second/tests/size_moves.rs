//! Moves between editions 1 and 2 (K8): the words, what is excepted, the order of the
//! refusals, and that operations under way go on.

mod common;

use common::editions::{stand_in_order, Source};
use common::sizes::{is_fit, live, made_2, set_live, set_sub, set_worker, size_word, TWO};
use common::states::{every_state_as_it_is, small_pools, CALLS};
use common::{edition_of, made_in, queue, stack, strided, Numbers};
use second::phase::{decode, is_of_kind, is_past_window, Side, Stage};
use second::{in_edition, layout, move_0_to_1, move_1_to_0, move_1_to_2, move_2_to_1};
use second::{Edition, Settings, MAY_NOT_MOVE, MOVING, QUEUE, TOO_SHORT, UNFIT, WRONG_EDITION};
use std::collections::BTreeSet;

const TOP: u32 = u32::MAX;
const JUNK: u32 = 0x5eed_5eed;
const ONE: Edition = Edition::One;

type Mover = fn(&[u32], &mut [u32]) -> u32;

/// The source's edition, the target's, and what moves.
const MOVES: [(Edition, Edition, Mover); 2] = [(ONE, TWO, move_1_to_2), (TWO, ONE, move_2_to_1)];

/// All needed words of an area that held junk.
fn moved(mover: Mover, from: &[u32], new: Edition) -> Vec<u32> {
    let needed = Settings::of_words(from).needed_words_in(new);
    let mut to = vec![JUNK; needed + 2];
    let before = from.to_vec();
    assert_eq!(mover(from, &mut to), MOVING, "{from:?}");
    assert_eq!(from, before);
    assert_eq!(to[needed..], [JUNK; 2]);
    to.truncate(needed);
    to
}

/// The number of the refusal, or 0; a refusal changes nothing.
fn number(mover: Mover, from: &[u32], len: usize) -> u32 {
    let mut to = vec![JUNK; len];
    let number = mover(from, &mut to);
    assert_eq!(to == vec![JUNK; len], number != MOVING);
    number
}

fn on(from: &[u32]) -> u32 {
    number(move_1_to_2, from, 9_000)
}

fn back(from: &[u32]) -> u32 {
    number(move_2_to_1, from, 9_000)
}

/// Three workers of a queue, one past its window phase: in every word another number
/// where fit allows it.
#[test]
fn every_word_of_a_queue_by_hand() {
    // w 2, d 2, R 4: P is 4 above T.
    let head = [0, 2, 2, 2, 4, 3, 106, 107, 14, 10, 1];
    let subs = [12, 11, 9, 9];
    let workers = [
        [0, 121, 1, 0, 124, 1, 126, 127, 128],
        [9, 131, 1, 1, 134, 0, 136, 137, 138],
        [14, 141, 0, 8, 144, 1, 146, 147, TOP],
    ];
    let cells: Vec<u32> = (150..166).collect();
    let one = [&head[..], &[1], &subs, &workers.concat(), &cells].concat();
    let [idle, window, confirm] = workers;
    let sizes = [&[2, 2, 0, 3][..], &[2; 6], &[0; 26]].concat();
    let two = [
        &head[..],
        &[2],
        &subs,
        &idle,
        &[0, 0],
        &window,
        &[0, 0],
        &confirm,
        &[6, 2],
        &cells,
        &sizes,
    ]
    .concat();
    assert_eq!(moved(move_1_to_2, &one, TWO), two);
    assert_eq!(moved(move_2_to_1, &two, ONE), one);
}

#[test]
fn every_word_of_a_stack_by_hand() {
    let head = [1, 1, 2, 1, 4, 2, 106, 107, 108, 109, 0];
    let sub = [3, 111];
    let workers = [
        [3, 121, 0, 123, 124, 0, 126, 127, 128],
        [6, 131, 0, 133, 134, 0, 136, 137, 138],
    ];
    let cells: Vec<u32> = (150..158).collect();
    let one = [&head[..], &[1], &sub, &workers.concat(), &cells].concat();
    let [first, second] = workers;
    let two = [
        &head[..],
        &[2],
        &sub,
        &first,
        &[0, 0],
        &second,
        &[0, 0],
        &cells,
        &[0; 36],
    ]
    .concat();
    assert_eq!(moved(move_1_to_2, &one, TWO), two);
    assert_eq!(moved(move_2_to_1, &two, ONE), one);
}

/// An edition 1 queue with P and T, w 2, d 3, R 9.
fn with_windows(put: u32, take: u32) -> Vec<u32> {
    let mut words = made_in(ONE, queue(2, 3, 9, 2));
    words[layout::PUT_WINDOW] = put;
    words[layout::TAKE_WINDOW] = take;
    words
}

#[test]
fn p_minus_t_is_0_to_15_times_d() {
    for windows in 0..20 {
        for more in 0..3 {
            let number = on(&with_windows(30 + 3 * windows + more, 30));
            let fits = windows < 16 && more == 0;
            assert_eq!(number, if fits { MOVING } else { MAY_NOT_MOVE });
        }
    }
    let two = moved(move_1_to_2, &with_windows(75, 30), TWO);
    assert_eq!(live(&two), vec![(2, 3); 16]);
    // P below T, and so by a multiple modulo 2^32.
    for (put, take) in [(3, 6), (0, 3), (2, TOP - 3), (1, TOP - 1), (0, TOP - 2)] {
        assert_eq!(on(&with_windows(put, take)), MAY_NOT_MOVE, "{put}, {take}");
    }
    assert_eq!(on(&with_windows(TOP, TOP - 45)), MOVING);
    assert_eq!(on(&with_windows(TOP, TOP - 48)), MAY_NOT_MOVE);
}

#[test]
fn t_is_not_below_d() {
    for (take, fits) in [(0, false), (2, false), (3, true), (4, true)] {
        let number = on(&with_windows(take, take));
        assert_eq!(number, if fits { MOVING } else { MAY_NOT_MOVE }, "{take}");
    }
}

#[test]
fn a_window_seen_past_the_window_phase_is_not_below_d() {
    for phase in (0..15).filter(|phase| is_of_kind(QUEUE, *phase)) {
        for seen in [0, 2, 3, 4, TOP] {
            let mut words = with_windows(6, 3);
            set_worker(
                &mut words,
                1,
                &[(layout::PHASE, phase), (layout::SEEN_WINDOW, seen)],
            );
            let past = is_past_window(phase);
            let fits = !past || seen >= 3;
            assert_eq!(on(&words), if fits { MOVING } else { MAY_NOT_MOVE });
            if fits {
                let two = moved(move_1_to_2, &words, TWO);
                let at = common::worker_at(&two, 1);
                let given = if past { [seen - 3, 2] } else { [0, 0] };
                assert_eq!(
                    two[at + layout::SEEN_BOTTOM..at + layout::SEEN_WIDTH + 1],
                    given
                );
                assert!(is_fit(&two));
                assert_eq!(moved(move_2_to_1, &two, ONE), words);
            }
        }
    }
}

/// Above T - d, 27, unless its rows are equal; edition 1 asks for no more than R rows.
#[test]
fn subs_that_would_not_fit() {
    for (rows, fits) in [
        ([20, 20], true),
        ([27, 26], false),
        ([21, 20], false),
        ([28, 26], true),
        ([29, 20], true),
        ([36, 27], true),
        ([44, 35], true),
    ] {
        for j in 0..2 {
            let mut words = with_windows(33, 30);
            set_sub(&mut words, j, rows);
            assert_eq!(
                on(&words),
                if fits { MOVING } else { MAY_NOT_MOVE },
                "{rows:?}"
            );
        }
    }
}

/// An edition 2 queue that moves back: w 2, d 3, R 9, two live windows.
fn two_windows() -> Vec<u32> {
    let mut words = made_2(queue(2, 3, 9, 2));
    set_live(&mut words, 30, &[(2, 3), (2, 3)]);
    assert_eq!(back(&words), MOVING);
    words
}

#[test]
fn back_only_with_the_pools_sizes_and_none_ever_set() {
    let live = layout::SIZES + layout::SIZE_WORDS;
    for (which, word) in [
        (layout::SIZE_SET, 1),
        (layout::NEXT_WIDTH, 1),
        (layout::NEXT_DEPTH, 4),
        (layout::SIZES + layout::SIZE_WIDTH, 1),
        (layout::SIZES + layout::SIZE_DEPTH, 4),
        (live + layout::SIZE_WIDTH, 1),
    ] {
        let mut words = two_windows();
        let at = size_word(&words, which);
        words[at] = word;
        assert!(is_fit(&words));
        assert_eq!(back(&words), MAY_NOT_MOVE, "{which}");
    }
    let mut words = two_windows();
    set_live(&mut words, 30, &[(2, 3), (2, 2)]);
    assert_eq!(back(&words), MAY_NOT_MOVE);
    // A size that was set to the pool's again is one that was set.
    let mut words = two_windows();
    assert_eq!(common::sizes::set_size(&mut words, (2, 3)), MOVING);
    assert_eq!(back(&words), MAY_NOT_MOVE);
    // R is a multiple of d.
    for rows in 6..20 {
        let number = back(&made_2(queue(2, 3, rows, 2)));
        assert_eq!(number, if rows % 3 == 0 { MOVING } else { MAY_NOT_MOVE });
    }
}

#[test]
fn back_only_with_the_pools_size_seen() {
    for phase in (0..15).filter(|phase| is_of_kind(QUEUE, *phase)) {
        for (seen, pools) in [
            ([30, 27, 2], true),
            ([3, 0, 2], true),
            ([TOP, TOP - 3, 2], true),
            ([30, 27, 1], false),
            ([30, 26, 2], false),
            ([30, 28, 2], false),
            ([27, 30, 2], false),
            // Whole numbers: 2 less 2^32 - 1 is 3 modulo 2^32.
            ([2, TOP, 2], false),
            ([0, TOP - 2, 2], false),
        ] {
            let mut words = two_windows();
            let [window, bottom, width] = seen;
            let set = [
                (layout::PHASE, phase),
                (layout::INDEX, 0),
                (layout::SEEN_WINDOW, window),
                (layout::SEEN_BOTTOM, bottom),
                (layout::SEEN_WIDTH, width),
            ];
            set_worker(&mut words, 1, &set);
            let fits = pools || !is_past_window(phase);
            let expected = if fits { MOVING } else { MAY_NOT_MOVE };
            assert_eq!(back(&words), expected, "{phase}, {seen:?}");
        }
    }
}

#[test]
fn back_only_with_subs_that_fit_edition_1() {
    // The bottom is 27, R is 9.
    for (rows, fits) in [
        ([28, 27], true),
        ([28, 19], true),
        ([28, 18], false),
        ([36, 27], true),
        ([36, 26], false),
        ([5, 5], true),
    ] {
        let mut words = two_windows();
        set_sub(&mut words, 1, rows);
        assert!(is_fit(&words));
        assert_eq!(
            back(&words),
            if fits { MOVING } else { MAY_NOT_MOVE },
            "{rows:?}"
        );
    }
}

/// A stack always moves, whatever it has seen.
#[test]
fn stacks_are_not_excepted() {
    let settings = stack(2, 3, 2, 7, 1);
    for phase in (0..15).filter(|phase| is_of_kind(settings.kind, *phase)) {
        for word in [0, 1, TOP] {
            let mut words = made_in(ONE, settings);
            words[layout::WINDOW] = word;
            words[layout::WINDOW_VERSION] = word;
            let set = [(layout::PHASE, phase), (layout::SEEN_WINDOW, word)];
            set_worker(&mut words, 0, &set);
            let two = moved(move_1_to_2, &words, TWO);
            assert_eq!(moved(move_2_to_1, &two, ONE), words);
        }
    }
}

fn refusal(
    (old, new, mover): (Edition, Edition, Mover),
    settings: Settings,
    faults: &[&str],
    edition: u32,
) -> u32 {
    let mut from = Source::whole(made_in(old, settings));
    let mut target = settings.needed_words_in(new);
    let last = common::worker_at(&from.words, settings.workers - 1);
    for fault in faults {
        if from.spoil(fault, &settings, last, edition) {
            continue;
        }
        match *fault {
            "excepted" if old == ONE => from.words[layout::PUT_WINDOW] += 1,
            "excepted" => {
                let at = settings.sizes_at_in(TWO) + layout::SIZE_SET;
                from.words[at] = 1;
            }
            "target" => target -= 1,
            other => panic!("{other}"),
        }
    }
    number(mover, from.lent(), target)
}

/// Each alone, and each two at once.
#[test]
fn refusals_stand_in_their_order() {
    let excepted = [("excepted", MAY_NOT_MOVE), ("target", TOO_SHORT)];
    let pools = [
        (strided(1, queue(2, 2, 4, 3)), &excepted[..]),
        (strided(1, stack(2, 2, 1, 4, 3)), &excepted[1..]),
    ];
    for (settings, more) in pools {
        for direction in MOVES {
            assert_eq!(refusal(direction, settings, &[], 0), MOVING);
            let others = [0, 1, 2, 3, 7, TOP].into_iter();
            for edition in others.filter(|word| *word != direction.0.word()) {
                stand_in_order(more, |faults| refusal(direction, settings, faults, edition));
            }
        }
    }
}

/// "Settings of the source's edition come before 31", and 33 is after fitness.
#[test]
fn rows_that_are_no_multiple() {
    let words = made_2(queue(2, 2, 5, 1));
    assert_eq!(on(&words), UNFIT);
    assert_eq!(back(&words), MAY_NOT_MOVE);
    let mut seventh = words.clone();
    seventh[layout::EDITION] = 7;
    assert_eq!(on(&seventh), UNFIT);
    assert_eq!(back(&seventh), WRONG_EDITION);
    seventh[layout::ROWS] = 4;
    assert_eq!(on(&seventh), WRONG_EDITION);
}

/// By the number of words of the source and of the target.
#[test]
fn every_length() {
    for settings in [queue(2, 1, 2, 3), strided(1, stack(2, 1, 1, 2, 2))] {
        for (old, new, mover) in MOVES {
            let [needed, wanted] = [old, new].map(|edition| settings.needed_words_in(edition));
            let mut from = made_in(old, settings);
            from.extend([JUNK; 2]);
            for from_len in 0..=from.len() {
                for to_len in [0, 11, 12, wanted - 1, wanted, wanted + 1, needed] {
                    let expected = match from_len < needed || to_len < wanted {
                        true => TOO_SHORT,
                        false => MOVING,
                    };
                    assert_eq!(number(mover, &from[..from_len], to_len), expected);
                }
            }
        }
    }
}

/// A fit image of edition 1 that no make leads to, often one that may move on.
fn image(numbers: &mut Numbers, settings: Settings) -> Vec<u32> {
    let mut words = made_in(ONE, settings);
    let any = |numbers: &mut Numbers| {
        let near = [0, 1, 2, 40, TOP, JUNK][numbers.below(6)];
        near.wrapping_add(numbers.below(3) as u32)
    };
    for at in settings.workers_at()..words.len() {
        words[at] = any(numbers);
    }
    let depth = settings.depth;
    let take = [depth, 2 * depth, 33, JUNK, TOP - 60][numbers.below(5)];
    words[layout::TAKE_WINDOW] = take;
    words[layout::PUT_WINDOW] = take + numbers.below(18) as u32 * depth;
    for j in 0..settings.width {
        let items = numbers.below(settings.rows as usize + 1) as u32;
        let below = take - depth + numbers.below(3) as u32;
        let rows = match settings.kind {
            QUEUE => [below + items, below],
            _ => [items, below],
        };
        set_sub(&mut words, j, rows);
    }
    let phases: Vec<u32> = (0..15).filter(|p| is_of_kind(settings.kind, *p)).collect();
    for worker in 0..settings.workers {
        let at = common::worker_at(&words, worker);
        words[at + layout::PHASE] = phases[numbers.below(phases.len())];
        words[at + layout::INDEX] %= settings.width;
        words[at + layout::SCAN] %= settings.width;
    }
    words
}

#[test]
fn on_and_back_is_exact() {
    let mut numbers = Numbers(7);
    let pools = [
        queue(1, 1, 2, 1),
        strided(2, queue(3, 2, 4, 4)),
        stack(1, 2, 1, 4, 1),
        strided(1, stack(3, 2, 1, 5, 4)),
    ];
    let (mut moves, mut stays) = (0, 0);
    for settings in pools.into_iter().cycle().take(20_000) {
        let one = image(&mut numbers, settings);
        match on(&one) {
            MOVING => {
                let two = moved(move_1_to_2, &one, TWO);
                assert!(is_fit(&two), "{two:?}");
                assert_eq!(moved(move_2_to_1, &two, ONE), one);
                moves += 1;
            }
            refusal => {
                assert_eq!((refusal, settings.kind), (MAY_NOT_MOVE, QUEUE));
                stays += 1;
            }
        }
    }
    assert!(moves > 3_000 && stays > 3_000, "{moves}, {stays}");
}

/// From every state of small pools: it moves on and back, and from edition 0 on and back
/// again; and each call is answered the same after the move, but where a confirm finds
/// that P has moved.
#[test]
fn every_state_moves_and_goes_on() {
    for settings in small_pools() {
        let mut phases = BTreeSet::new();
        let mut parted = 0;
        every_state_as_it_is(ONE, settings, |words| {
            let one = words.to_vec();
            let two = moved(move_1_to_2, &one, TWO);
            assert!(is_fit(&two));
            assert_eq!(moved(move_2_to_1, &two, ONE), one);
            let zero = moved(move_1_to_0, &one, Edition::Zero);
            let from_0 = moved(move_0_to_1, &zero, ONE);
            let from_0 = moved(move_1_to_2, &from_0, TWO);
            let to_0 = moved(move_2_to_1, &from_0, ONE);
            assert_eq!(moved(move_1_to_0, &to_0, Edition::Zero), zero);
            for worker in 0..settings.workers {
                let at = common::worker_at(&one, worker);
                let phase = one[at + layout::PHASE];
                phases.insert(phase);
                for call in CALLS {
                    let mut after = [one.clone(), two.clone()];
                    let answers = after.each_mut().map(|words| call(words, worker));
                    if answers[0] != answers[1] {
                        let confirms = matches!(decode(phase), Some((_, Stage::Confirm)));
                        assert!(confirms && settings.kind == QUEUE, "{words:?}");
                        let seen = one[at + layout::SEEN_WINDOW];
                        assert_ne!(one[layout::PUT_WINDOW], seen);
                        parted += 1;
                        continue;
                    }
                    assert_eq!(moved(move_2_to_1, &after[1], ONE), after[0]);
                }
            }
        });
        let all = (0..15).filter(|phase| is_of_kind(settings.kind, *phase));
        assert_eq!(phases, all.collect());
        // One sub is bare or it is not: with two there are such states.
        assert_eq!(parted > 0, settings.kind == QUEUE && settings.width > 1);
    }
}

/// Worker 0's take has found sub 0 bare and sub 1 spent, and has confirmed sub 0. Then
/// sub 0 is filled, and P moves. In edition 1 the take is empty, at a step before that;
/// in edition 2 it starts anew, and finds the item.
#[test]
fn a_run_that_editions_1_and_2_answer_otherwise() {
    let mut one = made_in(ONE, queue(2, 1, 2, 2));
    let begin = |words: &mut [u32], worker: u32, side: Side| match side {
        Side::Put => in_edition::begin_put(edition_of(words), words, worker, 9),
        Side::Take => in_edition::begin_take(edition_of(words), words, worker),
    };
    let steps = |words: &mut [u32], worker: u32, number: u32| {
        let step = |words: &mut [u32]| in_edition::step(edition_of(words), words, worker);
        (0..number).map(|_| step(words).number).last()
    };
    // Worker 1's index is 1.
    begin(&mut one, 1, Side::Put);
    assert_eq!(steps(&mut one, 1, 3), Some(second::PUT));
    begin(&mut one, 1, Side::Take);
    assert_eq!(steps(&mut one, 1, 3), Some(second::TAKEN));
    begin(&mut one, 0, Side::Take);
    assert_eq!(steps(&mut one, 0, 4), Some(MOVING));
    begin(&mut one, 1, Side::Put);
    assert_eq!(steps(&mut one, 1, 4), Some(second::PUT));
    begin(&mut one, 1, Side::Put);
    assert_eq!(steps(&mut one, 1, 4), Some(MOVING));
    assert_eq!(one[layout::PUT_WINDOW], 2);
    let mut two = moved(move_1_to_2, &one, TWO);
    assert_eq!(steps(&mut one, 0, 1), Some(second::EMPTY));
    assert_eq!(steps(&mut two, 0, 1), Some(MOVING));
    assert_eq!(steps(&mut two, 0, 3), Some(second::TAKEN));
}

/// 16 live windows are the most in edition 2, and not in edition 1.
#[test]
fn a_full_of_edition_2_alone() {
    let mut one = made_in(ONE, queue(1, 1, 32, 1));
    let put = |words: &mut [u32]| {
        let edition = edition_of(words);
        in_edition::begin_put(edition, words, 0, 9);
        let mut number = MOVING;
        while number == MOVING {
            number = in_edition::step(edition, words, 0).number;
        }
        number
    };
    for _ in 0..16 {
        assert_eq!(put(&mut one), second::PUT);
    }
    let mut two = moved(move_1_to_2, &one, TWO);
    assert_eq!(live(&two), [(1, 1); 16]);
    assert_eq!(put(&mut two), second::FULL);
    assert_eq!(put(&mut one), second::PUT);
    assert_eq!(on(&one), MAY_NOT_MOVE);
}
