//! The search beside plain enumeration: on small random histories, right ones
//! and spoiled ones, it finds a placing exactly if one exists, and says exactly
//! of which empties and fulls one exists with them at their last steps.

mod common;

use common::{put_answer, queue, stack, taken_answer, Numbers};
use second::phase::Side;
use second::{distance_bound, full_bound, worst_distance};
use second::{one_at_a_time, Answer, AtLast, Event, Fed, Placed, Settings};
use second::{EMPTY, FULL, MOVING, PUT, QUEUE, TAKEN};

/// An operation with the events of its own steps.
#[derive(Clone)]
struct Planned {
    worker: u32,
    side: Side,
    value: u32,
    steps: Vec<usize>,
    answer: Answer,
}

/// The settings, and how many items a take may pass over.
type Claim = (Settings, u32);

/// The list as plainly as can be: stamps and values in order of joining.
struct List {
    settings: Settings,
    most_passed: u32,
    items: Vec<(u32, u32)>,
    puts: u32,
}

impl List {
    fn new((settings, most_passed): Claim) -> List {
        List {
            settings,
            most_passed,
            items: Vec::new(),
            puts: 0,
        }
    }

    /// How many items are passed over, and how many of them are reported.
    fn counts(&self, at: usize) -> (u32, u32) {
        let (older, newer) = (&self.items[..at], &self.items[at + 1..]);
        let ahead = if self.settings.kind == QUEUE {
            older
        } else {
            newer
        };
        let spacers = ahead.iter().filter(|(_, value)| *value == 0).count();
        (ahead.len() as u32, (ahead.len() - spacers) as u32)
    }

    /// Every answer that the list allows to this operation now.
    fn answers(&self, side: Side, value: u32) -> Vec<Answer> {
        let held = self.items.len() as u32;
        let mut answers = Vec::new();
        match side {
            Side::Put => {
                answers.push(put_answer(value, 0, 0, self.puts + 1));
                if held >= full_bound(&self.settings) {
                    answers.push(Answer::of(FULL));
                }
            }
            Side::Take => {
                for (at, (stamp, value)) in self.items.iter().enumerate() {
                    let (passed_over, reported) = self.counts(at);
                    if passed_over <= self.most_passed {
                        answers.push(taken_answer(*value, 0, 0, *stamp, reported));
                    }
                }
                if held == 0 {
                    answers.push(Answer::of(EMPTY));
                }
            }
        }
        answers
    }

    fn apply(&mut self, value: u32, answer: Answer) {
        match answer.number {
            PUT => {
                self.puts += 1;
                self.items.push((self.puts, value));
            }
            TAKEN => self.items.retain(|(stamp, _)| *stamp != answer.stamp),
            _ => {}
        }
    }
}

/// Three workers, operations of one to three steps, mixed at random.
fn plan(numbers: &mut Numbers) -> (Vec<Planned>, Vec<Event>) {
    let mut planned: Vec<Planned> = Vec::new();
    let mut events = Vec::new();
    let mut open = [None; 3];
    while events.len() < 16 {
        let worker = numbers.below(3);
        match open[worker] {
            None => {
                let side = [Side::Put, Side::Take][numbers.below(2)];
                // A third are spacers.
                let value = numbers.below(9).saturating_sub(2) as u32;
                open[worker] = Some((planned.len(), 1 + numbers.below(3)));
                planned.push(Planned {
                    worker: worker as u32,
                    side,
                    value,
                    steps: Vec::new(),
                    answer: Answer::of(MOVING),
                });
                events.push(Event::Begin {
                    worker: worker as u32,
                    side,
                    value,
                    answer: Answer::of(MOVING),
                });
            }
            Some((operation, left)) => {
                planned[operation].steps.push(events.len());
                open[worker] = (left > 1).then_some((operation, left - 1));
                events.push(Event::Step {
                    worker: worker as u32,
                    answer: Answer::of(MOVING),
                    fed: Fed::Nothing,
                });
            }
        }
    }
    for (operation, _) in open.into_iter().flatten() {
        planned[operation].steps.clear();
    }
    planned.retain(|operation| !operation.steps.is_empty());
    (planned, events)
}

/// Gives the operations answers that some placing allows, then may spoil one.
fn answer(numbers: &mut Numbers, claim: Claim, planned: &mut [Planned], events: &mut [Event]) {
    let mut order: Vec<(usize, usize)> = (0..planned.len())
        .map(|k| (planned[k].steps[numbers.below(planned[k].steps.len())], k))
        .collect();
    order.sort();
    let mut list = List::new(claim);
    for (_, k) in order {
        let answers = list.answers(planned[k].side, planned[k].value);
        // Nothing to take within the bound does not happen: the oldest, or the
        // newest, is always within it.
        planned[k].answer = answers[numbers.below(answers.len())];
        list.apply(planned[k].value, planned[k].answer);
    }
    if !planned.is_empty() && numbers.below(2) == 0 {
        let spoiled = numbers.below(planned.len());
        let answer = &mut planned[spoiled].answer;
        match numbers.below(3) {
            0 => answer.distance ^= 1,
            1 => answer.stamp += 1,
            _ => *answer = Answer::of([EMPTY, FULL][numbers.below(2)]),
        }
    }
    for operation in planned.iter() {
        events[*operation.steps.last().expect("it has steps")] = Event::Step {
            worker: operation.worker,
            answer: operation.answer,
            fed: Fed::Nothing,
        };
    }
}

/// Tries every choice of a step for every operation.
fn some_placing(claim: Claim, planned: &[Planned], chosen: &mut Vec<(usize, usize)>) -> bool {
    let k = chosen.len();
    if k < planned.len() {
        return planned[k].steps.iter().any(|step| {
            chosen.push((*step, k));
            let found = some_placing(claim, planned, chosen);
            chosen.pop();
            found
        });
    }
    let mut order = chosen.clone();
    order.sort();
    let mut list = List::new(claim);
    order.into_iter().all(|(_, k)| {
        let operation = &planned[k];
        let allowed = list
            .answers(operation.side, operation.value)
            .contains(&operation.answer);
        list.apply(operation.value, operation.answer);
        allowed
    })
}

/// Of each empty and full, in the order in which they finished, whether some
/// placing has it at its last step.
fn at_their_last_steps(claim: Claim, planned: &[Planned]) -> Vec<AtLast> {
    let mut unchanging: Vec<usize> = (0..planned.len())
        .filter(|k| matches!(planned[*k].answer.number, EMPTY | FULL))
        .collect();
    unchanging.sort_by_key(|k| planned[*k].steps.last().copied());
    let at_last = |k: usize| {
        let mut kept = planned.to_vec();
        kept[k].steps.drain(..planned[k].steps.len() - 1);
        match some_placing(claim, &kept, &mut Vec::new()) {
            true => AtLast::Can,
            false => AtLast::Cannot,
        }
    };
    unchanging.into_iter().map(at_last).collect()
}

fn said(placed: &Placed) -> Vec<AtLast> {
    let unchanging = placed.unchanging.iter();
    unchanging.map(|unchanging| unchanging.at_last).collect()
}

#[test]
fn the_search_agrees_with_enumeration() {
    let mut numbers = Numbers(1);
    let (mut right, mut wrong, mut gone_back) = (0, 0, 0);
    let (mut can, mut cannot) = (0, 0);
    for _ in 0..4000 {
        let kinds = [
            queue(2, 1, 2, 3),
            queue(1, 1, 2, 3),
            stack(2, 1, 1, 2, 3),
            stack(1, 1, 1, 2, 3),
        ];
        let settings = kinds[numbers.below(4)];
        let most_passed = [distance_bound, worst_distance][numbers.below(2)](&settings);
        let claim = (settings, most_passed);
        let (mut planned, mut events) = plan(&mut numbers);
        answer(&mut numbers, claim, &mut planned, &mut events);
        let expected = some_placing(claim, &planned, &mut Vec::new());
        let found = one_at_a_time(&settings, most_passed, &events);
        assert_eq!(found.is_ok(), expected, "{claim:?} {events:?}");
        if let Ok(placed) = &found {
            let at_last = at_their_last_steps(claim, &planned);
            assert_eq!(said(placed), at_last, "{claim:?} {events:?}");
            let cannots = at_last.iter().filter(|at| **at == AtLast::Cannot).count();
            cannot += cannots;
            can += at_last.len() - cannots;
        }
        match found {
            Ok(placed) if placed.returns > 0 => gone_back += 1,
            Ok(_) => right += 1,
            Err(_) => wrong += 1,
        }
    }
    assert!(
        right > 500 && wrong > 500 && gone_back > 500,
        "{right} {wrong} {gone_back}"
    );
    assert!(can > 500 && cannot > 200, "{can} {cannot}");
}
