//! What a failing case prints.

use second::{layout, Settings};
use std::fmt::{self, Debug};

pub struct Difference {
    /// A call or a dispatch.
    pub call: String,
    pub other: &'static str,
    /// Of the second implementation and of the other one.
    pub answers: [String; 2],
    pub before: Vec<u32>,
    pub after: [Vec<u32>; 2],
}

pub enum Failure {
    Different(Box<Difference>),
    /// A refusal that changed words, or a write outside the lent words.
    Broken(&'static str, String),
    /// Anything that is said in words.
    Said(String),
}

impl Failure {
    pub fn broken(name: &'static str, call: impl Debug, answer: impl Debug) -> Failure {
        Failure::Broken(name, format!("{call:?} answered {answer:?}"))
    }
}

impl fmt::Display for Failure {
    fn fmt(&self, to: &mut fmt::Formatter) -> fmt::Result {
        match self {
            Failure::Different(difference) => difference.fmt(to),
            Failure::Broken(name, answered) => {
                writeln!(
                    to,
                    "  {name} changed words that it may not change: {answered}"
                )
            }
            Failure::Said(text) => writeln!(to, "  {text}"),
        }
    }
}

impl fmt::Display for Difference {
    fn fmt(&self, to: &mut fmt::Formatter) -> fmt::Result {
        let [ours, theirs] = &self.after;
        writeln!(to, "  call: {} on {} words", self.call, ours.len())?;
        writeln!(to, "  second answers {}", self.answers[0])?;
        writeln!(to, "  {} answers {}", self.other, self.answers[1])?;
        for at in (0..ours.len()).filter(|at| ours[*at] != theirs[*at]) {
            let name = word_name(&self.before, at);
            writeln!(
                to,
                "  word {at} ({name}): before {}, second {}, {} {}",
                self.before[at], ours[at], self.other, theirs[at]
            )?;
        }
        writeln!(to, "  words before the call: {:?}", self.before)
    }
}

/// What stands at a word, as far as the settings in the words tell.
fn word_name(words: &[u32], at: usize) -> String {
    if at < layout::HEADER_WORDS || words.len() < layout::HEADER_WORDS {
        return "header".to_string();
    }
    let settings = Settings::of_words(words);
    if !settings.within_limits() || at >= settings.needed_words() {
        return "beyond the pool".to_string();
    }
    let sizes_at = settings.cells().end;
    if at >= sizes_at {
        return format!("word {} after the cells", at - sizes_at);
    }
    let parts = [
        ("cell", settings.cells_at(), layout::CELL_WORDS),
        ("worker", settings.workers_at(), layout::WORKER_WORDS),
        ("sub", settings.subs_at(), layout::SUB_WORDS),
    ];
    for (name, start, size) in parts {
        if at >= start {
            let number = (at - start) / size;
            return format!("{name} {number}, its word {}", (at - start) % size);
        }
    }
    unreachable!("subs start where the header ends")
}
