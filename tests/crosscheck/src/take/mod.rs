//! A take and the items that it passes over, as the words just before it show
//! them: older ones of a queue, newer ones of a stack. Two numbers: all of them,
//! which the bound is about, and those that are no spacers (K4), the distance.

mod sub;

use second::{segments_of_subs, worst_distance};
use second::{Answer, Edition, Settings, QUEUE, SPACER, TAKEN};
pub use sub::Sub;
use sub::{Counted, PoolWords};

pub struct Take<'a> {
    pub settings: Settings,
    /// What is taken.
    pub value: u32,
    pub stamp: u32,
    /// Each sub of a stack; of a queue each in each live window within whose width it
    /// lies.
    pub subs: Vec<Sub<'a>>,
    pub passed_over: u32,
    pub reported: u32,
}

impl<'a> Take<'a> {
    /// By its answer. The words just after it have the same two numbers, since it
    /// does not pass over the item that it takes.
    pub fn of(words: &'a [u32], answer: &Answer) -> Take<'a> {
        let settings = Settings::of_words(words);
        let edition = Edition::of_words(words).expect("a take's pool is fit");
        let runs = segments_of_subs(edition, words).into_iter();
        let mut subs = Vec::new();
        for (j, runs) in (0..).zip(runs) {
            let pool = PoolWords { words, edition };
            for (below, segments) in pool.rows_below(j).into_iter().zip(&runs) {
                let counted = Counted {
                    below,
                    segments: segments.clone(),
                    in_all: runs.iter().flatten().cloned().collect(),
                };
                subs.push(Sub::of(&pool, j, counted, answer.stamp));
            }
        }
        let mut take = Take {
            settings,
            value: answer.value,
            stamp: answer.stamp,
            subs,
            passed_over: 0,
            reported: 0,
        };
        take.passed_over = take.number_held(|sub, cell| sub.is_ahead(cell));
        take.reported = take.number_held(|sub, cell| sub.counts(cell));
        take
    }

    /// The last one of a script to the worst distance.
    pub fn of_script(words: &'a [u32], last: &Answer) -> Result<Take<'a>, String> {
        let worst = worst_distance(&Settings::of_words(words));
        Take::of_script_to(worst, words, last)
    }

    /// The last one of a script to this figure, by the words and the answer that it
    /// leaves. It must pass over as many items as the figure says, spacers too, and
    /// report all but the spacers. A script that got stuck ends with another answer,
    /// whose stamp says nothing.
    pub fn of_script_to(figure: u32, words: &'a [u32], last: &Answer) -> Result<Take<'a>, String> {
        if last.number != TAKEN {
            return Err(format!("it ends with {last:?}, which is no take"));
        }
        let take = Take::of(words, last);
        let (passed_over, reported) = (take.passed_over, take.reported);
        if passed_over != figure || last.distance != reported {
            let ends = format!("it ends with {last:?}, where {passed_over} items are passed over");
            return Err(format!(
                "{ends}, {reported} of them no spacers, not {figure}"
            ));
        }
        Ok(take)
    }

    pub fn takes_spacer(&self) -> bool {
        self.value == SPACER
    }

    pub fn passes_spacers(&self) -> bool {
        self.reported < self.passed_over
    }

    /// The stamp that all others are behind of.
    pub fn foremost_stamp(&self) -> u32 {
        match self.settings.kind {
            QUEUE => 0,
            _ => u32::MAX,
        }
    }

    /// The stamp that all others are ahead of.
    pub fn hindmost_stamp(&self) -> u32 {
        !self.foremost_stamp()
    }

    pub fn some_held(&self, is_so: impl Fn(&Sub, u32) -> bool) -> bool {
        let mut subs = self.subs.iter();
        subs.any(|sub| sub.held_cells().any(|cell| is_so(sub, cell)))
    }

    fn number_held(&self, is_so: impl Fn(&Sub, u32) -> bool) -> u32 {
        let subs = self.subs.iter();
        let of_sub = |sub: &Sub| sub.held_cells().filter(|cell| is_so(sub, *cell)).count();
        subs.map(|sub| of_sub(sub) as u32).sum()
    }
}
