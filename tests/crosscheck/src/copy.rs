//! A copy of some words, which an implementation gets for itself.

/// Words on both sides of the lent ones, to see a write outside of them.
const GUARD: usize = 8;
const GUARD_WORD: u32 = 0xa5a5_a5a5;

/// A copy of the words, lent from between its guards.
pub struct Copy {
    guarded: Vec<u32>,
}

impl Copy {
    pub fn of(words: &[u32]) -> Copy {
        let guard = [GUARD_WORD; GUARD];
        Copy {
            guarded: [&guard, words, &guard].concat(),
        }
    }

    pub fn lent(&self) -> &[u32] {
        &self.guarded[GUARD..self.guarded.len() - GUARD]
    }

    pub fn lend(&mut self) -> &mut [u32] {
        let end = self.guarded.len() - GUARD;
        &mut self.guarded[GUARD..end]
    }

    pub fn guards_stand(&self) -> bool {
        let (low, rest) = self.guarded.split_at(GUARD);
        let high = &rest[rest.len() - GUARD..];
        low.iter().chain(high).all(|word| *word == GUARD_WORD)
    }
}
