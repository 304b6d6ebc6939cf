//! Demand 3 with size calls and moves among the calls (K8): runs at random, each of which
//! must stand one at a time, and what runs by hand show of the bound.

mod common;

use common::sized_run::Run;
use common::sizes::{live, moves, Pair, TWO};
use common::{queue, stack, strided, worker_at, Numbers};
use second::phase::{self, Side};
use second::{
    in_edition, layout, longest_stretch, solo_steps, Edition, Event, Fed, Settings, Size,
};
use second::{EMPTY, FULL, MOVING, NO_SUCH_SIZE, STEP_LIMIT};

const SIDES: [Side; 2] = [Side::Put, Side::Take];

/// A queue of any width, often with rows that are no multiple of the depth.
fn any_queue(numbers: &mut Numbers) -> Settings {
    let mut between = |low: u32, high: u32| low + numbers.below((high - low + 1) as usize) as u32;
    let (width, depth, workers) = (between(1, 4), between(1, 3), between(1, 5));
    let rows = between(2 * depth, 9 * depth);
    let stride = between(0, width - 1);
    strided(stride, queue(width, depth, rows, workers))
}

/// Any width and depth that there is, and rows for several windows of them.
fn large_queue(numbers: &mut Numbers) -> Settings {
    let mut between = |low: u32, high: u32| low + numbers.below((high - low + 1) as usize) as u32;
    let (width, depth, workers) = (between(5, 16), between(1, 64), between(6, 32));
    let rows = between(2 * depth, 256);
    queue(width, depth, rows, workers)
}

/// One that comes to 16 live windows within a few hundred calls.
fn many_windows(numbers: &mut Numbers) -> Settings {
    queue(1 + numbers.below(2) as u32, 1, 40, 3)
}

fn any_size(numbers: &mut Numbers, settings: &Settings) -> Pair {
    let width = 1 + numbers.below(settings.width as usize) as u32;
    let most = (settings.rows / 2).min([4, 64][numbers.below(2)]);
    (width, 1 + numbers.below(most as usize) as u32)
}

/// How a run goes: percents of size calls and of moves, of puts among the begins, for a
/// while or, above 90, all along, and of steps that the same worker makes again.
struct Style {
    sizes: usize,
    moves: usize,
    puts: usize,
    again: usize,
}

fn chance(numbers: &mut Numbers, percent: usize) -> bool {
    numbers.below(100) < percent
}

/// Who makes the next call; some workers are held back for a while.
struct Schedule {
    awake: Vec<bool>,
    worker: usize,
    puts: usize,
    turn: usize,
}

impl Schedule {
    fn new(settings: &Settings) -> Schedule {
        Schedule {
            awake: vec![true; settings.workers as usize],
            worker: 0,
            puts: 50,
            turn: 0,
        }
    }

    /// A worker, and what it would begin.
    fn next(&mut self, numbers: &mut Numbers, style: &Style) -> (u32, Side) {
        if self.turn % 30 == 0 {
            self.awake.fill_with(|| chance(numbers, 60));
            let turned = [style.puts, 100 - style.puts, 50][numbers.below(3)];
            self.puts = if style.puts > 90 { style.puts } else { turned };
        }
        self.turn += 1;
        let mut again = chance(numbers, style.again);
        while !again || !self.awake[self.worker] && chance(numbers, 90) {
            self.worker = numbers.below(self.awake.len());
            again = true;
        }
        let side = SIDES[usize::from(!chance(numbers, self.puts))];
        (self.worker as u32, side)
    }
}

fn is_busy(words: &[u32], worker: u32) -> bool {
    words[worker_at(words, worker) + layout::PHASE] != phase::IDLE
}

/// So many calls at random.
fn play(numbers: &mut Numbers, run: &mut Run, style: &Style, calls: usize) {
    let mut schedule = Schedule::new(&run.settings);
    for _ in 0..calls {
        if run.edition() == TWO && chance(numbers, style.sizes) {
            let size = any_size(numbers, &run.settings);
            assert_eq!(run.set_size(size), MOVING);
        }
        if chance(numbers, style.moves) {
            let to = match run.edition() {
                Edition::One => [Edition::Zero, Edition::Two][numbers.below(2)],
                _ => Edition::One,
            };
            run.move_to(to);
        }
        let (worker, side) = schedule.next(numbers, style);
        if is_busy(&run.words, worker) {
            assert!(!run.step(worker).is_refusal(), "{:?}", run.words);
        } else {
            // A fifth are spacers.
            run.begin(worker, side, numbers.below(5) as u32);
        }
    }
}

/// In edition 2 with sizes, from each edition with moves, and with neither.
#[test]
fn runs_at_random_stand_one_at_a_time() {
    let mut numbers = Numbers(19);
    let mut finals = [0; 4];
    let (mut above, mut at_the_bound, mut fullest) = (0, 0, 0);
    for turn in 0..9_000 {
        let style = Style {
            sizes: [0, 3, 15][numbers.below(3)],
            moves: [0, 0, 10][turn % 3],
            puts: [50, 60, 80, 95][numbers.below(4)],
            again: [0, 50, 90][numbers.below(3)],
        };
        let mut settings = any_queue(&mut numbers);
        let mut calls = 250;
        if style.puts > 90 {
            settings = many_windows(&mut numbers);
        } else if turn % 30 == 1 {
            settings = large_queue(&mut numbers);
            calls = 2_000;
        }
        let mut edition = TWO;
        if style.moves > 0 {
            settings.rows -= settings.rows % settings.depth;
            edition = [Edition::Zero, Edition::One, TWO][numbers.below(3)];
        }
        let mut run = Run::new(edition, settings);
        play(&mut numbers, &mut run, &style, calls);
        if let Err(why) = run.stands_one_at_a_time() {
            panic!("{why}: {settings:?}, {:?}", run.events);
        }
        for (all, number) in finals.iter_mut().zip(run.finals()) {
            *all += number;
        }
        above += run.above_the_pools;
        at_the_bound += run.at_the_bound;
        if run.edition() == TWO {
            fullest = fullest.max(live(&run.words).len());
        }
    }
    assert!(finals.iter().all(|number| *number > 1_000), "{finals:?}");
    assert!(above > 100 && at_the_bound > 100, "{above}, {at_the_bound}");
    assert_eq!(fullest, 16);
}

/// A stack has no sizes, and moves with its work under way.
#[test]
fn stacks_moved_at_random_stand_one_at_a_time() {
    let mut numbers = Numbers(20);
    for _ in 0..200 {
        let settings = stack(1 + numbers.below(3) as u32, 2, 1, 5, 3);
        let style = Style {
            sizes: 0,
            moves: 15,
            puts: 55,
            again: 30,
        };
        let mut run = Run::new(Edition::One, settings);
        play(&mut numbers, &mut run, &style, 250);
        assert_eq!(run.stands_one_at_a_time(), Ok(()));
    }
}

/// Narrow, then wide and deep: w 2, d 1. The take passes over three items, its own
/// window's bound, where the pool's sizes would allow one.
#[test]
fn the_pools_own_bound_would_be_too_low() {
    let settings = queue(2, 1, 12, 2);
    let mut run = Run::new(TWO, settings);
    let put = |run: &mut Run, worker: u32, sub: u32, row: u32| {
        let answer = run.put(worker);
        assert_eq!((answer.sub, answer.row), (sub, row));
    };
    assert_eq!(run.set_size((1, 2)), MOVING);
    put(&mut run, 0, 0, 1);
    put(&mut run, 0, 1, 1);
    put(&mut run, 0, 0, 2);
    put(&mut run, 0, 0, 3);
    assert_eq!(run.set_size((2, 3)), MOVING);
    for row in 4..=6 {
        put(&mut run, 0, 0, row);
    }
    // Sub 1 was left at row 1 by the narrow window.
    put(&mut run, 1, 1, 4);
    assert_eq!(live(&run.words), [(2, 1), (1, 2), (2, 3)]);
    for _ in 0..4 {
        run.take(0);
    }
    // Worker 0 shifts the take window on, and worker 1 is still at sub 1.
    run.begin(0, Side::Take, 0);
    while live(&run.words).len() > 1 {
        assert_eq!(run.step(0).number, MOVING);
    }
    let answer = run.take(1);
    assert_eq!((answer.sub, answer.row, answer.distance), (1, 4, 3));
    assert_eq!((run.above_the_pools, run.at_the_bound), (1, 1));
    assert_eq!(run.stands_one_at_a_time(), Ok(()));
    assert!(run.stands_with(2).is_err());
    assert!(run.stands_with(second::distance_bound(&settings)).is_err());
}

/// What is fed decides: a take by its own window, and a full by its places.
#[test]
fn the_list_goes_by_what_it_is_fed() {
    let settings = queue(2, 1, 8, 1);
    let mut run = Run::new(TWO, settings);
    for _ in 0..3 {
        run.put(0);
    }
    let allowed = |run: &Run| run.stands_one_at_a_time().is_ok();
    assert!(allowed(&run));
    let step = |answer, fed| Event::Step {
        worker: 0,
        answer,
        fed,
    };
    let begin = |side| Event::Begin {
        worker: 0,
        side,
        value: 0,
        answer: second::Answer::of(MOVING),
    };
    // Stamps 1 and 2 are passed over.
    let taken = common::taken_answer(7, 0, 2, 3, 2);
    for (width, depth, fits) in [(2, 1, false), (2, 2, true), (3, 1, true), (1, 9, false)] {
        let mut events = run.events.clone();
        let fed = Fed::Window(Size { width, depth });
        events.extend([begin(Side::Take), step(taken, fed)]);
        let found = second::one_at_a_time(&settings, u32::MAX, &events);
        assert_eq!(found.is_ok(), fits, "{width}, {depth}");
    }
    for (places, fits) in [(0, true), (3, true), (4, false)] {
        let mut events = run.events.clone();
        let full = step(second::Answer::of(FULL), Fed::Places(places));
        events.extend([begin(Side::Put), full]);
        let found = second::one_at_a_time(&settings, u32::MAX, &events);
        assert_eq!(found.is_ok(), fits, "{places}");
    }
    run.events.clear();
    assert!(allowed(&run));
}

/// K3 and K7 "keep their figures with the pool's w". The closer ones that pools without
/// sizes come to are not passed either.
#[test]
fn solo_operations_and_stretches() {
    let mut numbers = Numbers(21);
    let mut most = [[0; 2]; 5];
    for _ in 0..1_500 {
        let settings = any_queue(&mut numbers);
        let style = Style {
            sizes: 10,
            moves: 0,
            puts: [50, 70][numbers.below(2)],
            again: 40,
        };
        let mut run = Run::new(TWO, settings);
        for _ in 0..20 {
            play(&mut numbers, &mut run, &style, 15);
            for worker in 0..settings.workers {
                if is_busy(&run.words, worker) {
                    continue;
                }
                for side in SIDES {
                    let steps = solo(&run.words, worker, side);
                    assert!(steps <= solo_steps(&settings, side), "{:?}", run.words);
                    let most = &mut most[settings.width as usize][side as usize];
                    *most = steps.max(*most);
                }
            }
        }
        assert!(run.longest <= longest_stretch(&settings), "{settings:?}");
    }
    for width in 1..=4 {
        let figures = SIDES.map(|side| solo_steps(&queue(width, 1, 2, 2), side));
        assert_eq!(most[width as usize], figures);
    }
}

fn solo(words: &[u32], worker: u32, side: Side) -> u32 {
    let mut words = words.to_vec();
    common::sizes::begin(&mut words, worker, side);
    common::sizes::finish(&mut words, worker).1
}

/// A size call is no step, and is among neither demand 3's operations nor K7's steps.
#[test]
fn size_calls_at_the_step_limit() {
    let mut run = Run::new(TWO, queue(2, 1, 4, 1));
    run.begin(0, Side::Put, 3);
    moves(&mut run.words, 0, 2);
    run.words[layout::STEPS_COUNTED] = STEP_LIMIT;
    assert_eq!(run.set_size((1, 2)), MOVING);
    assert_eq!(run.set_size((3, 2)), NO_SUCH_SIZE);
    assert_eq!(
        in_edition::step(TWO, &mut run.words, 0).number,
        second::SPENT
    );
}

/// Without size calls, as long as no confirm finds that P moved and there are fewer than
/// 16 live windows, editions 1 and 2 answer alike, and their words correspond.
#[test]
fn editions_1_and_2_agree_without_sizes() {
    let mut numbers = Numbers(22);
    let (mut parted, mut agreed) = ([0, 0], 0);
    for turn in 0..1_500 {
        let mut settings = any_queue(&mut numbers);
        settings.rows -= settings.rows % settings.depth;
        let mut puts = 70;
        if turn % 10 == 0 {
            settings = many_windows(&mut numbers);
            puts = 95;
        }
        let style = Style {
            sizes: 0,
            moves: 0,
            puts,
            again: [0, 60, 90][turn % 3],
        };
        let mut schedule = Schedule::new(&settings);
        let mut one = Run::new(Edition::One, settings);
        let mut two = Run::new(TWO, settings);
        for _ in 0..400 {
            let (worker, side) = schedule.next(&mut numbers, &style);
            let answers = if is_busy(&two.words, worker) {
                [one.step(worker), two.step(worker)]
            } else {
                [&mut one, &mut two].map(|run| run.begin(worker, side, 5))
            };
            if answers[0] != answers[1] {
                // A confirm whose P moved, or a seventeenth window.
                let both = answers.map(|answer| answer.number);
                let ways = [[EMPTY, MOVING], [MOVING, FULL]];
                let way = ways.iter().position(|way| *way == both);
                parted[way.expect("there is no other")] += 1;
                break;
            }
            agreed += 1;
            let mut on = Run::new(Edition::One, settings);
            on.words.copy_from_slice(&one.words);
            assert!(on.move_to(TWO));
            hold_alike(&on.words, &two.words);
        }
        for run in [one, two] {
            assert_eq!(run.stands_one_at_a_time(), Ok(()));
        }
    }
    assert!(parted.iter().all(|times| *times > 3), "{parted:?}");
    assert!(agreed > 100_000, "{agreed}");
}

/// All words but what a worker in its window phase has seen before: a move drops that.
fn hold_alike(moved: &[u32], two: &[u32]) {
    let mut two = two.to_vec();
    for worker in 0..two[layout::WORKERS] {
        let at = worker_at(&two, worker);
        if !phase::is_past_window(two[at + layout::PHASE]) {
            two[at + layout::SEEN_BOTTOM..at + layout::SEEN_WIDTH + 1].fill(0);
        }
    }
    assert_eq!(moved, two);
}
