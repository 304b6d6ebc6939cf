//! The ninth words (K5), and whether a commit fails, by the words before it.

use super::{edition_of, worker_at};
use second::{layout, Edition, Settings, QUEUE};

/// The places of the ninth words, by worker.
pub fn ninth_words(edition: Edition, settings: &Settings) -> impl Iterator<Item = usize> {
    let workers = settings.workers_at()..settings.cells_at_in(edition);
    workers
        .skip(layout::FAILED_COMMITS)
        .step_by(edition.worker_words())
}

pub fn failed_commits(words: &[u32]) -> Vec<u32> {
    let settings = Settings::of_words(words);
    let ninth = ninth_words(edition_of(words), &settings);
    ninth.map(|at| words[at]).collect()
}

pub fn set_failed_commits(words: &mut [u32], all: impl IntoIterator<Item = u32>) {
    let settings = Settings::of_words(words);
    for (at, failed) in ninth_words(edition_of(words), &settings).zip(all) {
        words[at] = failed;
    }
}

pub fn phase(words: &[u32], worker: u32) -> u32 {
    worker_words(words, worker)[layout::PHASE]
}

/// Whether the worker stands before a commit that finds another count (queue) or
/// version (stack) than the one seen. Commit is phase 4 of a put, 12 of a take.
pub fn commit_fails(words: &[u32], worker: u32) -> bool {
    let settings = Settings::of_words(words);
    let worker = worker_words(words, worker);
    let sub = &words[settings.subs_at() + layout::SUB_WORDS * worker[layout::INDEX] as usize..];
    let found = match (worker[layout::PHASE], settings.kind) {
        (4, QUEUE) => sub[layout::ITEMS_PUT],
        (12, QUEUE) => sub[layout::ITEMS_TAKEN],
        (4 | 12, _) => sub[layout::VERSION],
        _ => return false,
    };
    found != worker[layout::SEEN]
}

fn worker_words(words: &[u32], worker: u32) -> &[u32] {
    &words[worker_at(words, worker)..][..edition_of(words).worker_words()]
}
