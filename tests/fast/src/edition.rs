//! The edition by how many words a worker has, which each call is compiled for: a queue's
//! windows have sizes of their own (K8), or there is no code for them.

use second::Edition;

pub const fn of_worker_words(words: usize) -> Edition {
    if words == Edition::Two.worker_words() {
        Edition::Two
    } else {
        Edition::One
    }
}

pub const fn has_sizes(worker_words: usize) -> bool {
    of_worker_words(worker_words).has_sizes()
}
