//! A script: acts one after the other. In those that lead to a figure no commit
//! fails, so they do with every stride.

use super::acts::Act;
use super::values::Values;
use super::workers::Workers;
use crate::rng::Rng;
use second::Settings;
use sides::Call;
use std::iter::Peekable;
use std::vec::IntoIter;

/// No script has this many calls for each needed word; one that has is stuck.
const PATIENCE: usize = 20;

pub struct Script {
    settings: Settings,
    acts: Peekable<IntoIter<Act>>,
    calls_left: usize,
}

impl Script {
    pub fn new(settings: Settings, acts: Vec<Act>) -> Script {
        Script {
            settings,
            acts: acts.into_iter().peekable(),
            calls_left: PATIENCE * settings.needed_words(),
        }
    }

    /// The next call on a pool with these words, a put of one of the values; none
    /// after the last act, or when the script is stuck.
    pub fn next(&mut self, rng: &mut Rng, words: &[u32], values: Values) -> Option<Call> {
        let workers = Workers {
            settings: &self.settings,
            words,
        };
        while self.acts.next_if(|act| act.is_over(&workers)).is_some() {}
        self.calls_left = self.calls_left.checked_sub(1)?;
        let act = self.acts.peek()?;
        Some(act.next(rng, &workers, values))
    }
}
