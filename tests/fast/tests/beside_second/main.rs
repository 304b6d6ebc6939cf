//! The fast calls beside the second implementation's, in edition 2 and in the current one:
//! runs from make, images that no make leads to, damaged and cut ones, and random words.
//! All words and answers are compared after each call.

mod images;
mod numbers;
mod sides;

use images::{damaged, fit_image, random_words};
use numbers::Numbers;
use second::{layout, Edition, Settings, Size, QUEUE, STACK, STEP_LIMIT};
use sides::{Call, CURRENT, TWO};
use std::collections::BTreeMap;

/// Both sides' words, which stay equal, and how often each number was given.
struct Beside {
    side: sides::Side,
    words: [Vec<u32>; 2],
    numbers: BTreeMap<(&'static str, u32), u64>,
}

impl Beside {
    fn new(side: sides::Side) -> Beside {
        Beside {
            side,
            words: [Vec::new(), Vec::new()],
            numbers: BTreeMap::new(),
        }
    }

    fn go_on_in(&mut self, words: Vec<u32>) {
        self.words = [words.clone(), words];
    }

    fn call(&mut self, call: Call) -> u32 {
        let before = self.words[0].clone();
        let [second, fast] = &mut self.words;
        let answers = [
            (self.side.second)(second, call),
            (self.side.fast)(fast, call),
        ];
        assert_eq!(answers[0], answers[1], "{call:?} on {before:?}");
        assert_eq!(self.words[0], self.words[1], "{call:?} on {before:?}");
        let number = answers[0].0;
        *self.numbers.entry((call.name(), number)).or_insert(0) += 1;
        number
    }

    fn settings(&self) -> Settings {
        Settings::of_words(&self.words[0])
    }

    /// Any call on these words, most of them steps.
    fn any_call(&mut self, numbers: &mut Numbers) -> u32 {
        let settings = self.settings();
        let worker = match numbers.chance(97) {
            true => numbers.below(settings.workers.clamp(1, 32)),
            false => numbers.pick(&[settings.workers, 32, u32::MAX]),
        };
        let call = match numbers.below(20) {
            0..4 => Call::BeginPut {
                worker,
                value: numbers.pick(&[0, 1, 7, u32::MAX]),
            },
            4..7 => Call::BeginTake { worker },
            7 => Call::Dispatch {
                worker,
                steps: numbers.below(12),
            },
            8 if self.side.edition == Edition::Two => Call::SetSize(any_size(numbers, &settings)),
            _ => Call::Step { worker },
        };
        self.call(call)
    }
}

/// Often within limits, and about them.
fn any_size(numbers: &mut Numbers, settings: &Settings) -> Size {
    let (width, half) = (settings.width.max(1), (settings.rows / 2).max(1));
    let any_width = numbers.between(1, width.min(16));
    let any_depth = numbers.between(1, half.min(64));
    match numbers.chance(85) {
        true => Size {
            width: any_width,
            depth: numbers.pick(&[any_depth, 1, half.min(64)]),
        },
        false => Size {
            width: numbers.pick(&[0, any_width, width, width.wrapping_add(1), u32::MAX]),
            depth: numbers.pick(&[0, any_depth, half, half.wrapping_add(1), 65, u32::MAX]),
        },
    }
}

/// Within limits in this edition, and about them now and then.
fn any_settings(numbers: &mut Numbers, edition: Edition) -> Settings {
    let large = numbers.chance(10);
    let kind = numbers.pick(&[QUEUE, QUEUE, STACK]);
    let width = numbers.between(1, if large { 16 } else { 4 });
    let depth = numbers.between(1, if large { 64 } else { 4 });
    let most = if large { 1024 } else { 10 * depth };
    let mut rows = numbers
        .between(2 * depth, most.max(2 * depth))
        .min(4096 / width);
    rows = rows.max(2 * depth);
    if kind == QUEUE && !edition.has_sizes() {
        rows -= rows % depth;
    }
    Settings {
        kind,
        width,
        depth,
        shift: if kind == QUEUE {
            depth
        } else {
            numbers.between(1, depth)
        },
        rows,
        workers: numbers.between(1, if large { 32 } else { 5 }),
        stride: numbers.below(width),
    }
}

fn runs_from_make(side: sides::Side, seed: u64, runs: u32) -> Beside {
    let mut numbers = Numbers(seed);
    let mut beside = Beside::new(side);
    for _ in 0..runs {
        let settings = any_settings(&mut numbers, beside.side.edition);
        let needed = settings.needed_words_in(beside.side.edition);
        let len = needed + numbers.pick(&[0, 1, 7]) as usize;
        let words = (0..len).map(|_| numbers.any()).collect();
        beside.go_on_in(words);
        beside.call(Call::Make(settings));
        if numbers.chance(5) {
            for words in &mut beside.words {
                words[layout::STEPS_COUNTED] = STEP_LIMIT - 100;
            }
        }
        // Fewer workers take part for a while, so that windows fill and empty.
        let mut puts = 50;
        let mut active = settings.workers;
        for turn in 0..400 {
            if turn % 40 == 0 {
                puts = numbers.pick(&[20, 50, 90]);
                active = numbers.between(1, settings.workers);
            }
            let worker = numbers.below(active);
            if numbers.chance(6) {
                beside.any_call(&mut numbers);
            } else if beside.call(Call::Step { worker }) == second::IDLE {
                let value = numbers.pick(&[0, 3, 9]);
                beside.call(match numbers.chance(puts) {
                    true => Call::BeginPut { worker, value },
                    false => Call::BeginTake { worker },
                });
            }
        }
    }
    beside
}

fn images(side: sides::Side, seed: u64, images: u32) -> Beside {
    let mut numbers = Numbers(seed);
    let mut beside = Beside::new(side);
    for _ in 0..images {
        let edition = beside.side.edition;
        let settings = any_settings(&mut numbers, edition);
        let sort = numbers.below(10);
        let fits = sort < 6;
        let words = match sort {
            _ if fits => fit_image(&mut numbers, edition, settings),
            6..9 => damaged(&mut numbers, edition, settings),
            _ => random_words(&mut numbers, edition),
        };
        beside.go_on_in(words);
        if fits {
            let nobody = Call::Step { worker: u32::MAX };
            assert_eq!(beside.call(nobody), second::NO_WORKER);
        }
        for _ in 0..6 {
            if beside.words[0].len() < layout::HEADER_WORDS {
                beside.call(Call::Step { worker: 0 });
                break;
            }
            beside.any_call(&mut numbers);
        }
    }
    beside
}

/// Each of these was given by a step, and each of those by the call that sets a size.
fn came_to(beside: &Beside, of_steps: &[u32], of_sizes: &[u32]) {
    println!("{:?}", beside.numbers);
    let all = of_steps.iter().map(|number| ("step", *number));
    for what in all.chain(of_sizes.iter().map(|number| ("size", *number))) {
        let times = beside.numbers.get(&what).copied().unwrap_or(0);
        assert!(times > 50, "{what:?}: {times}");
    }
}

#[test]
fn runs_from_make_in_edition_2() {
    let beside = runs_from_make(TWO, 1, 4_000);
    came_to(&beside, &[0, 1, 2, 3, 4, 26], &[0, 32]);
}

#[test]
fn runs_from_make_in_the_current_edition() {
    let beside = runs_from_make(CURRENT, 2, 2_000);
    came_to(&beside, &[0, 1, 2, 3, 4, 26], &[]);
}

#[test]
fn images_in_edition_2() {
    let beside = images(TWO, 3, 300_000);
    came_to(
        &beside,
        &[0, 1, 2, 3, 4, 21, 23, 24, 26, 27],
        &[0, 21, 23, 32],
    );
}

#[test]
fn images_in_the_current_edition() {
    let beside = images(CURRENT, 4, 100_000);
    came_to(&beside, &[0, 1, 2, 3, 4, 21, 23, 24, 26, 27], &[]);
}

#[test]
fn makes() {
    for side in [TWO, CURRENT] {
        let mut numbers = Numbers(5);
        let mut beside = Beside::new(side);
        for _ in 0..20_000 {
            let edition = beside.side.edition;
            let mut settings = any_settings(&mut numbers, edition);
            if numbers.chance(30) {
                let off = numbers.pick(&[0, 17, 65, 33, 1025, u32::MAX]);
                let which = numbers.below(7);
                let fields = [
                    &mut settings.kind,
                    &mut settings.width,
                    &mut settings.depth,
                    &mut settings.shift,
                    &mut settings.rows,
                    &mut settings.workers,
                    &mut settings.stride,
                ];
                *fields
                    .into_iter()
                    .nth(which as usize)
                    .expect("there are seven") = off;
            }
            let needed = match settings.within_limits_in(edition) {
                true => settings.needed_words_in(edition),
                false => 40,
            };
            let len = numbers.pick(&[needed - 1, needed, needed + 3]);
            beside.go_on_in(vec![0x5eed_5eed; len]);
            beside.call(Call::Make(settings));
        }
        for number in [0, 21, 22] {
            assert!(beside.numbers[&("make", number)] > 500);
        }
    }
}
