//! The failed commits of a run (K5): counted over its steps, by the words before
//! each, and held against the workers' ninth words.

use crate::make_up::workers::{edition, Workers};
use second::{Answer, Edition, Settings};

pub struct FailedCommits {
    by_worker: Vec<u32>,
}

impl FailedCommits {
    pub fn since_make(workers: u32) -> FailedCommits {
        FailedCommits {
            by_worker: vec![0; workers as usize],
        }
    }

    /// As the ninth words have them, none where there are no such words.
    pub fn of(words: &[u32]) -> FailedCommits {
        FailedCommits {
            by_worker: ninth_words(words),
        }
    }

    /// A step of this worker, by the words before it. A refused one counts none.
    pub fn note(&mut self, before: &[u32], worker: u32, answer: Answer) {
        let workers = Workers {
            settings: &Settings::of_words(before),
            words: before,
        };
        if !answer.is_refusal() && workers.is_to_fail(worker) {
            let count = &mut self.by_worker[worker as usize];
            *count = count.wrapping_add(1);
        }
    }

    /// What is wrong with the ninth words, if something is.
    pub fn difference(&self, words: &[u32]) -> Option<String> {
        if edition(words) == Edition::Zero {
            return None;
        }
        let counts = self.by_worker.iter().zip(ninth_words(words));
        let mut by_worker = (0..).zip(counts);
        let (worker, (count, word)) = by_worker.find(|(_, (count, word))| *count != word)?;
        Some(format!(
            "worker {worker} has {count} failed commits, and its ninth word is {word}"
        ))
    }
}

fn ninth_words(words: &[u32]) -> Vec<u32> {
    let workers = Workers {
        settings: &Settings::of_words(words),
        words,
    };
    let has = edition(words) > Edition::Zero;
    (0..workers.number())
        .map(|worker| has.then(|| workers.failed_commits(worker)).unwrap_or(0))
        .collect()
}
