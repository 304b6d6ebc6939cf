//! Corners of a dispatch (K7): what it says first where more than one thing
//! holds, who gets a turn and who is passed over, and what stands of a refused
//! one.

use second::phase::IDLE;
use second::{layout, Answer, Dispatched, Settings};
use second::{NO_WORKER, QUEUE, SPENT, STACK, STEP_LIMIT, UNFIT};
use sides::Dispatch;

pub struct Seen<'a> {
    pub dispatch: Dispatch,
    pub dispatched: Dispatched,
    /// Its steps by worker and answer, the last of them perhaps refused.
    pub made: &'a [(u32, Answer)],
    pub before: &'a [u32],
}

pub type Corner = (&'static str, fn(&Seen) -> bool);

pub const DISPATCHES: [Corner; 26] = [
    ("a dispatch of a queue finishes", |seen| {
        finished(seen).is_some() && is_of(seen, QUEUE)
    }),
    ("a dispatch of a stack finishes", |seen| {
        finished(seen).is_some() && is_of(seen, STACK)
    }),
    ("a dispatch finishes at its first step", |seen| {
        finished(seen).is_some() && seen.made.len() == 1
    }),
    ("a dispatch finishes at its last step", |seen| {
        finished(seen).is_some() && seen.made.len() as u32 == seen.dispatch.steps
    }),
    ("a dispatch of 2^32 - 1 steps", |seen| {
        finished(seen).is_some() && seen.dispatch.steps == u32::MAX
    }),
    ("the named worker finishes", |seen| {
        finished(seen) == Some(seen.dispatch.worker)
    }),
    ("another worker finishes", |seen| {
        finished(seen).is_some_and(|worker| worker != seen.dispatch.worker)
    }),
    ("the named worker is idle and passed over", |seen| {
        seen.made.first().map(|(worker, _)| *worker) != Some(seen.dispatch.worker)
            && !seen.made.is_empty()
    }),
    ("idle workers between two turns are passed over", |seen| {
        turns(seen).any(|(last, next)| (last + 1) % workers(seen) != next)
    }),
    ("one worker alone has turn after turn", |seen| {
        workers(seen) > 1 && turns(seen).any(|(last, next)| last == next)
    }),
    ("from worker n - 1 to worker 0", |seen| {
        turns(seen).any(|turn| turn == (workers(seen) - 1, 0)) && workers(seen) > 1
    }),
    ("a dispatch of more than two rounds", |seen| {
        workers(seen) > 1 && seen.made.len() as u32 > 2 * workers(seen)
    }),
    ("the next turn is that of worker 0, after n - 1", |seen| {
        ran_out(seen) == Some(0)
            && workers(seen) > 1
            && seen.made.last().map(|(worker, _)| *worker) == Some(workers(seen) - 1)
    }),
    ("the next turn is that of an idle worker", |seen| {
        ran_out(seen).is_some_and(|next| is_idle(seen, next)) && !seen.made.is_empty()
    }),
    ("a count of 0 beside a busy worker", |seen| {
        seen.dispatch.steps == 0 && ran_out(seen).is_some()
    }),
    ("a count of 0 at the step limit", |seen| {
        seen.dispatch.steps == 0 && ran_out(seen).is_some() && is_spent(seen)
    }),
    ("nobody is busy and the count is 0", |seen| {
        seen.dispatch.steps == 0 && seen.dispatched == Dispatched::NoneBusy
    }),
    ("nobody is busy at the step limit", |seen| {
        seen.dispatched == Dispatched::NoneBusy && is_spent(seen)
    }),
    ("a dispatch by no worker, the count 0", |seen| {
        refused(seen) == Some(NO_WORKER) && seen.dispatch.steps == 0
    }),
    ("a dispatch by no worker, nobody busy", |seen| {
        refused(seen) == Some(NO_WORKER) && none_busy(seen)
    }),
    ("a dispatch of words that are not fit", |seen| {
        refused(seen) == Some(UNFIT) && seen.made.is_empty()
    }),
    ("words that are not fit, by no worker", |seen| {
        refused(seen) == Some(UNFIT) && seen.dispatch.worker >= workers(seen)
    }),
    ("a commit's 23 at once", |seen| {
        refused(seen) == Some(UNFIT) && seen.made.len() == 1
    }),
    ("a commit's 23 after steps that stand", |seen| {
        refused(seen) == Some(UNFIT) && seen.made.len() > 1
    }),
    ("27 at once", |seen| {
        refused(seen) == Some(SPENT) && seen.made.len() == 1
    }),
    ("27 after steps that stand", |seen| {
        refused(seen) == Some(SPENT) && seen.made.len() > 1
    }),
];

fn finished(seen: &Seen) -> Option<u32> {
    match seen.dispatched {
        Dispatched::Finished { worker, .. } => Some(worker),
        _ => None,
    }
}

fn ran_out(seen: &Seen) -> Option<u32> {
    match seen.dispatched {
        Dispatched::RanOut { next } => Some(next),
        _ => None,
    }
}

fn refused(seen: &Seen) -> Option<u32> {
    match seen.dispatched {
        Dispatched::Refused(number) => Some(number),
        _ => None,
    }
}

/// A worker that stepped, and the one that stepped next.
fn turns<'a>(seen: &'a Seen) -> impl Iterator<Item = (u32, u32)> + 'a {
    seen.made.windows(2).map(|pair| (pair[0].0, pair[1].0))
}

fn is_of(seen: &Seen, kind: u32) -> bool {
    seen.before[layout::KIND] == kind
}

/// None in words without a header.
fn workers(seen: &Seen) -> u32 {
    seen.before.get(layout::WORKERS).copied().unwrap_or(0)
}

fn is_spent(seen: &Seen) -> bool {
    seen.before[layout::STEPS_COUNTED] >= STEP_LIMIT
}

/// Before the dispatch, of a fit pool.
fn is_idle(seen: &Seen, worker: u32) -> bool {
    let workers_at = Settings::of_words(seen.before).workers_at();
    let at = workers_at + layout::WORKER_WORDS * worker as usize;
    seen.before[at + layout::PHASE] == IDLE
}

fn none_busy(seen: &Seen) -> bool {
    (0..workers(seen)).all(|worker| is_idle(seen, worker))
}
