//! A script that brings a take of any pool to its worst distance: it passes over
//! as many items as can be, spacers or not. Two workers of a stack play it, one of
//! a queue; any others never step.
//!
//! In a queue the filler fills the window of all subs but the last one, then puts
//! an item there, and takes it.
//!
//! In a stack the taker comes to stand before the commit that takes one item of
//! the last sub, x. The filler then moves the window up once more and fills the
//! other subs. It starts at sub 0 and never comes to the last one, so the commit
//! still succeeds; and the other subs were empty once with x in its place, so
//! all that they hold is newer.
//!
//! How far up the window comes is the whole art. A take comes to x only while
//! x is above G - d. So x is put as high as can be beside empty subs, in row
//! d + s, and the window goes up while x stays in reach and another shift is
//! left for the end. With rows for one shift alone, that is the one for the
//! end, and x is in row d.

use super::acts::{puts, takes, Act, Until};
use super::script::Script;
use second::phase::Stage;
use second::{Settings, QUEUE};

/// From make it stands at sub 0.
const FILLER: u32 = 0;
/// From make it stands at sub 1: the first time, it fills sub 0 last.
const TAKER: u32 = 1;

/// Of a queue, or of a stack with two workers or more.
pub fn script(settings: Settings) -> Script {
    let acts = match settings.kind {
        QUEUE => of_queue(),
        _ => of_stack(&settings),
    };
    Script::new(settings, acts)
}

fn of_queue() -> Vec<Act> {
    vec![
        puts(FILLER, Until::OthersFull),
        puts(FILLER, Until::LastHolds(1)),
        takes(FILLER, Until::Before(Stage::Commit)),
        takes(FILLER, Until::Idle),
    ]
}

fn of_stack(settings: &Settings) -> Vec<Act> {
    let Settings { depth, shift, .. } = *settings;
    let shifts = (settings.rows - depth) / shift;
    let window_after = |shifts| Until::WindowIs(depth + shift * shifts);
    // The filler finds no room and is left where its next step is a shift.
    let fill_all = [
        puts(TAKER, Until::AllFull),
        puts(FILLER, Until::Before(Stage::Shift)),
    ];
    let mut acts = Vec::from(fill_all);
    acts.push(takes(TAKER, Until::NextIsInLast { row: depth }));
    let mut shifts_made = 0;
    if shifts >= 2 {
        let row = depth + shift;
        acts.push(takes(TAKER, Until::LastHolds(depth - 1)));
        acts.push(puts(FILLER, window_after(1)));
        acts.push(puts(TAKER, Until::LastHolds(row)));
        shifts_made = 1 + (shifts - 2).min((depth - 1) / shift);
        for made in 2..=shifts_made {
            acts.extend(fill_all);
            acts.push(puts(FILLER, window_after(made)));
        }
        acts.extend(fill_all);
        acts.push(takes(TAKER, Until::NextIsInLast { row }));
    }
    acts.push(takes(TAKER, Until::Before(Stage::Commit)));
    acts.push(puts(FILLER, window_after(shifts_made + 1)));
    acts.push(puts(FILLER, Until::OthersFull));
    acts.push(takes(TAKER, Until::Idle));
    acts
}
