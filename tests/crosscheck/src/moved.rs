//! A move by each implementation, between two areas lent to it alone: the numbers and
//! all words of the target must be equal afterwards, and the source as it was.

use crate::copy::Copy;
use crate::failure::Failure;
use crate::side_by_side::Checks;
use second::{Settings, MOVING};
use sides::{Move, Mover, COMPILED_MOVER, SECOND_MOVER};
use std::hint::black_box;

/// What is compared with the second implementation; `fast` has no moves.
static OTHERS: [Mover; 1] = [COMPILED_MOVER];

/// Which way a pool goes, and what pool it is, whatever may be wrong with its words.
#[derive(Clone, Copy)]
pub struct Trip {
    pub which: Move,
    pub settings: Settings,
    /// Nothing but calls and moves since a make that was not refused.
    pub from_make: bool,
}

impl Trip {
    /// The needed words of the source and of the target.
    pub fn needed(&self) -> [usize; 2] {
        let editions = self.which.editions();
        editions.map(|edition| self.settings.needed_words_in(edition))
    }
}

/// The answer's number, and the target's words afterwards.
pub type Moved = (u32, Vec<u32>);

/// Between copies of these words.
pub fn moved(trip: Trip, from: &[u32], to: &[u32], checks: &mut Checks) -> Result<Moved, Failure> {
    let ours = by(&SECOND_MOVER, trip.which, from, to)?;
    let written = match ours.0 {
        MOVING => trip.needed()[1],
        _ => 0,
    };
    if ours.1[written..] != to[written..] {
        return Err(Failure::broken(SECOND_MOVER.name, trip.which, ours.0));
    }
    for other in &OTHERS {
        let theirs = by(other, trip.which, from, to)?;
        if theirs != ours {
            return Err(different(
                trip.which,
                [from, to],
                &ours,
                (other.name, &theirs),
            ));
        }
    }
    checks.coverage.record_move(trip, from, to, ours.0);
    Ok(ours)
}

fn by(mover: &Mover, which: Move, from: &[u32], to: &[u32]) -> Result<Moved, Failure> {
    let mut source = Copy::of(from);
    let mut target = Copy::of(to);
    let number = mover.answer(which, source.lent(), target.lend());
    // It was lent for reading alone: look at it as if it might have been written.
    let source = black_box(&mut source);
    if source.lent() != from || !source.guards_stand() || !target.guards_stand() {
        return Err(Failure::broken(mover.name, which, number));
    }
    Ok((number, target.lent().to_vec()))
}

fn different(
    which: Move,
    [from, to]: [&[u32]; 2],
    ours: &Moved,
    (name, theirs): (&str, &Moved),
) -> Failure {
    let mut text = format!(
        "call: {which:?} of {} words to {} words\n  second answers {}\n  {name} answers {}",
        from.len(),
        to.len(),
        ours.0,
        theirs.0
    );
    for at in (0..to.len()).filter(|at| ours.1[*at] != theirs.1[*at]) {
        text += &format!(
            "\n  target word {at}: before {}, second {}, {name} {}",
            to[at], ours.1[at], theirs.1[at]
        );
    }
    Failure::Said(format!(
        "{text}\n  source: {from:?}\n  target before: {to:?}"
    ))
}
