//! One pool in as many copies as there are implementations: a call or a dispatch
//! is made on each copy, and all words and all numbers must be equal afterwards. In an
//! edition before the current one there is the second implementation alone.

use crate::copy::Copy;
use crate::coverage::{Coverage, Origin};
use crate::failure::{Difference, Failure};
use crate::make_up::values::Values;
use second::in_edition::dispatch_watched;
use second::{Answer, Dispatched, Edition};
use sides::{second_in, Call, Dispatch, Implementation, COMPILED, FAST};
use std::fmt::Debug;

/// What is compared with the second implementation.
pub static OTHERS: [Implementation; 2] = [COMPILED, FAST];

/// What a case makes its calls with.
pub struct Checks {
    /// All of OTHERS, or none, to see what runs one at a time find alone.
    pub others: &'static [Implementation],
    pub coverage: Coverage,
}

pub struct SideBySide {
    edition: Edition,
    second: Copy,
    others: Vec<(&'static Implementation, Copy)>,
    before: Vec<u32>,
    /// Nothing but calls since a make that was not refused.
    from_make: bool,
    /// Of its cells or of its puts, where all of them are of one share.
    values: Option<Values>,
}

impl SideBySide {
    pub fn new(words: &[u32], checks: &Checks) -> SideBySide {
        SideBySide::in_edition(Edition::CURRENT, words, checks)
    }

    pub fn in_edition(edition: Edition, words: &[u32], checks: &Checks) -> SideBySide {
        let others = match edition {
            Edition::CURRENT => checks.others.iter(),
            _ => [].iter(),
        };
        SideBySide {
            edition,
            second: Copy::of(words),
            others: others.map(|other| (other, Copy::of(words))).collect(),
            before: words.to_vec(),
            from_make: false,
            values: None,
        }
    }

    /// In the edition that the words are of.
    pub fn with_values(words: &[u32], values: Values, checks: &Checks) -> SideBySide {
        let edition = Edition::of_words(words).unwrap_or(Edition::CURRENT);
        SideBySide::in_edition(edition, words, checks).of_values(values)
    }

    /// Where all of its puts have such values.
    pub fn of_values(mut self, values: Values) -> SideBySide {
        self.values = Some(values);
        self
    }

    /// Whether what its calls come to counts as reached: they were compared.
    fn is_counted(&self) -> bool {
        self.edition == Edition::CURRENT
    }

    pub fn words(&self) -> &[u32] {
        self.second.lent()
    }

    /// Those before the last call.
    pub fn words_before(&self) -> &[u32] {
        &self.before
    }

    pub fn call(&mut self, call: Call, checks: &mut Checks) -> Result<Answer, Failure> {
        self.before.copy_from_slice(self.second.lent());
        let second = second_in(self.edition);
        let answer = second.call(self.second.lend(), call);
        let unchanged = self.before == self.second.lent();
        if answer.is_refusal() && !unchanged {
            return Err(Failure::broken(second.name, call, answer));
        }
        self.compare(call, answer, |other, words| other.call(words, call))?;
        self.from_make |= matches!(call, Call::Make(_)) && !answer.is_refusal();
        let words = [&self.before, self.second.lent()];
        let origin = Origin {
            from_make: self.from_make,
            share: self.values.map(|values| values.share),
        };
        if self.is_counted() {
            checks.coverage.record(call, answer, words, origin);
        }
        Ok(answer)
    }

    /// What it came to, and its steps by worker and answer.
    pub fn dispatch(
        &mut self,
        dispatch: Dispatch,
        checks: &mut Checks,
    ) -> Result<(Dispatched, Vec<(u32, Answer)>), Failure> {
        self.before.copy_from_slice(self.second.lent());
        let Dispatch { worker, steps } = dispatch;
        let mut made = Vec::new();
        let words = self.second.lend();
        let watch = |worker, answer| made.push((worker, answer));
        let dispatched = dispatch_watched(self.edition, words, worker, steps, watch);
        let returned = dispatched.returned();
        self.compare(dispatch, returned, |other, words| {
            other.dispatch(words, dispatch)
        })?;
        if self.is_counted() {
            let coverage = &mut checks.coverage;
            coverage.record_dispatch(dispatch, dispatched, &made, &self.before);
        }
        Ok((dispatched, made))
    }

    /// The same call of the others must answer and leave what the second's does.
    fn compare<A: PartialEq + Debug>(
        &mut self,
        call: impl Debug,
        answer: A,
        make: impl Fn(&Implementation, &mut [u32]) -> A,
    ) -> Result<(), Failure> {
        if !self.second.guards_stand() {
            let name = second_in(self.edition).name;
            return Err(Failure::broken(name, call, answer));
        }
        for (other, copy) in &mut self.others {
            let theirs = make(other, copy.lend());
            if !copy.guards_stand() {
                return Err(Failure::broken(other.name, call, theirs));
            }
            if theirs != answer || copy.lent() != self.second.lent() {
                return Err(Failure::Different(Box::new(Difference {
                    call: format!("{call:?}"),
                    other: other.name,
                    answers: [answer, theirs].map(|answer| format!("{answer:?}")),
                    before: self.before.clone(),
                    after: [self.second.lent().to_vec(), copy.lent().to_vec()],
                })));
            }
        }
        Ok(())
    }
}
