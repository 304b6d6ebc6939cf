//! A run from make on all implementations: its calls, and then the same run one
//! at a time. It may begin in an earlier edition, with the second implementation alone.

use super::events::{at_last_steps, event, step};
use super::failed_commits::FailedCommits;
use crate::failure::Failure;
use crate::make_up::values::Values;
use crate::make_up::workers::{edition, set_failed_commits};
use crate::make_up::{junk, live_windows};
use crate::rng::Rng;
use crate::side_by_side::{Checks, SideBySide};
use crate::take::Take;
use second::{layout, longest_stretch, one_at_a_time, worst_distance};
use second::{Answer, Dispatched, Edition, Event, Placed, Settings};
use second::{FULL, MOVING, QUEUE, STEP_LIMIT, TAKEN};
use sides::{second_in, Call, Dispatch};

pub struct FromMake {
    /// What a failure calls it.
    name: &'static str,
    pub settings: Settings,
    /// Those of its puts.
    pub values: Values,
    pools: SideBySide,
    events: Vec<Event>,
    failed_commits: FailedCommits,
    /// A size was set (K8): takes then go by their own windows' sizes.
    pub sizes_set: bool,
    /// The most items that a take has passed over so far, spacers too.
    pub most_passed: u32,
    /// Steps since the last final answer, and the most of them so far.
    pub stretch: u32,
    pub longest: u32,
}

impl FromMake {
    /// With any share of spacers.
    pub fn new(
        name: &'static str,
        rng: &mut Rng,
        settings: Settings,
        checks: &mut Checks,
    ) -> Result<FromMake, Failure> {
        FromMake::in_edition(name, rng, (Edition::CURRENT, settings), checks)
    }

    pub fn in_edition(
        name: &'static str,
        rng: &mut Rng,
        (edition, settings): (Edition, Settings),
        checks: &mut Checks,
    ) -> Result<FromMake, Failure> {
        let values = Values::new(rng);
        FromMake::made(name, rng, (edition, settings, values), checks)
    }

    pub fn with_values(
        name: &'static str,
        rng: &mut Rng,
        (settings, values): (Settings, Values),
        checks: &mut Checks,
    ) -> Result<FromMake, Failure> {
        FromMake::made(name, rng, (Edition::CURRENT, settings, values), checks)
    }

    /// Words that held junk, made into a pool; some are lent beyond the needed.
    fn made(
        name: &'static str,
        rng: &mut Rng,
        (edition, settings, values): (Edition, Settings, Values),
        checks: &mut Checks,
    ) -> Result<FromMake, Failure> {
        let len = settings.needed_words_in(edition) + rng.pick(&[0, 0, 1, 7]);
        let words = junk::words(rng, len);
        let mut pools = SideBySide::in_edition(edition, &words, checks).of_values(values);
        let answer = pools.call(Call::Make(settings), checks)?;
        if answer.is_refusal() {
            let what = format!("{name} with {settings:?}: make is answered {answer:?}");
            return Err(Failure::Said(what));
        }
        Ok(FromMake {
            name,
            settings,
            values,
            pools,
            events: Vec::new(),
            failed_commits: FailedCommits::since_make(settings.workers),
            sizes_set: false,
            most_passed: 0,
            stretch: 0,
            longest: 0,
        })
    }

    pub fn words(&self) -> &[u32] {
        self.pools.words()
    }

    pub fn call(&mut self, call: Call, checks: &mut Checks) -> Result<Answer, Failure> {
        let answer = self.pools.call(call, checks)?;
        self.events
            .extend(event(self.pools.words_before(), call, answer));
        match call {
            Call::Step { worker } => {
                let before = self.pools.words_before();
                self.failed_commits.note(before, worker, answer);
                self.note_full(before, answer)?;
                self.note_step(answer)?;
            }
            Call::SetSize(_) => self.sizes_set |= answer.number == MOVING,
            _ => {}
        }
        self.hold_ninth_words()?;
        Ok(answer)
    }

    pub fn dispatch(
        &mut self,
        dispatch: Dispatch,
        checks: &mut Checks,
    ) -> Result<Dispatched, Failure> {
        let mut words = self.words().to_vec();
        let (dispatched, made) = self.pools.dispatch(dispatch, checks)?;
        for (worker, answer) in made {
            self.events.push(step(&words, worker, answer));
            self.failed_commits.note(&words, worker, answer);
            self.note_full(&words, answer)?;
            second_in(edition(&words)).call(&mut words, Call::Step { worker });
            self.note_step(answer)?;
        }
        self.hold_ninth_words()?;
        Ok(dispatched)
    }

    /// Against the count over the run (K5).
    fn hold_ninth_words(&self) -> Result<(), Failure> {
        match self.failed_commits.difference(self.words()) {
            Some(what) => Err(self.said(&what)),
            None => Ok(()),
        }
    }

    /// K8: "full means that just before the chosen step every place in the windows after
    /// the take window holds an item in the pool". It holds at the last step too.
    fn note_full(&self, before: &[u32], answer: Answer) -> Result<(), Failure> {
        if answer.number != FULL || self.settings.kind != QUEUE {
            return Ok(());
        }
        match place_not_held(before) {
            Some(place) => Err(self.said(&format!("full, and {place} holds nothing: {before:?}"))),
            None => Ok(()),
        }
    }

    /// In a queue no stretch may be longer than the figure.
    fn note_step(&mut self, answer: Answer) -> Result<(), Failure> {
        if answer.number == TAKEN {
            let passed_over = Take::of(self.words(), &answer).passed_over;
            self.most_passed = self.most_passed.max(passed_over);
        }
        if answer.is_final() {
            self.stretch = 0;
        } else if !answer.is_refusal() {
            self.stretch += 1;
        }
        self.longest = self.longest.max(self.stretch);
        let figure = longest_stretch(&self.settings);
        if self.settings.kind == QUEUE && self.stretch > figure {
            let what = format!("no answer in {} steps in a row", self.stretch);
            return Err(self.said(&format!("{what}, the longest stretch has {figure}")));
        }
        Ok(())
    }

    /// As after a long run: with so many steps left in the step count.
    pub fn leave_steps(&mut self, left: u32, checks: &Checks) {
        let mut words = self.words().to_vec();
        words[layout::STEPS_COUNTED] = STEP_LIMIT - left;
        self.pools = SideBySide::with_values(&words, self.values, checks);
    }

    /// As after a longer one than there is: with failed commits near 2^32.
    pub fn leave_failed_commits(&mut self, rng: &mut Rng, checks: &Checks) {
        let mut words = self.words().to_vec();
        set_failed_commits(&mut words, || junk::near_the_top(rng));
        self.go_on_in(&words, checks);
    }

    /// The same pool in these words, with other failed commits (K5, K6).
    pub fn go_on_in(&mut self, words: &[u32], checks: &Checks) {
        self.pools = SideBySide::with_values(words, self.values, checks);
        self.failed_commits = FailedCommits::of(words);
    }

    /// With the worst distance in the place of demand 3's bound, which is a
    /// greater one: no take may pass over more. Where sizes were set, each take by its own
    /// window's alone, which it is fed. Also at the last steps, where the
    /// list holds what the pool held: spacers leave the search other places, at
    /// which a take may pass over less of them.
    pub fn one_at_a_time(&self) -> Result<Placed, Failure> {
        let worst = match self.sizes_set {
            true => u32::MAX,
            false => worst_distance(&self.settings),
        };
        let placed = self.placed(worst, &self.events)?;
        let at_last_steps = at_last_steps(&self.events);
        self.placed(worst, &at_last_steps)?;
        // The list's limit counts all items, whatever their values.
        match self.most_passed.checked_sub(1) {
            Some(one_less) if self.placed(one_less, &at_last_steps).is_ok() => {
                let passed = self.most_passed;
                Err(self.said(&format!(
                    "one at a time: {one_less} items are the limit, and {passed} may be passed over"
                )))
            }
            _ => Ok(placed),
        }
    }

    fn placed(&self, most_passed: u32, events: &[Event]) -> Result<Placed, Failure> {
        one_at_a_time(&self.settings, most_passed, events).map_err(|why| {
            if self.most_passed > most_passed {
                self.said(&format!(
                    "a take passes over {} items, and {most_passed} is the most; one at a time: {why}",
                    self.most_passed
                ))
            } else {
                self.said(&format!("one at a time: {why}"))
            }
        })
    }

    /// A failure of this run, with its settings.
    pub fn said(&self, what: &str) -> Failure {
        Failure::Said(format!("{} with {:?}: {what}", self.name, self.settings))
    }
}

/// In the windows after the take window of a queue, if there is one.
fn place_not_held(words: &[u32]) -> Option<String> {
    let settings = Settings::of_words(words);
    let mut bottom = words[layout::TAKE_WINDOW];
    for size in live_windows::sizes(words).into_iter().skip(1) {
        let top = bottom + size.depth;
        for j in 0..size.width {
            let sub = &words[settings.subs_at() + layout::SUB_WORDS * j as usize..];
            if sub[layout::ITEMS_TAKEN] > bottom || sub[layout::ITEMS_PUT] < top {
                return Some(format!("a row of {bottom} to {top} of sub {j}"));
            }
        }
        bottom = top;
    }
    None
}
