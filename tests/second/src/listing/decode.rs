//! The kinds of words in a run file. None stands for refusal 29: a kind out of
//! place or a nonzero spare bit.

use crate::pool::edition::Edition;
use crate::pool::settings::Settings;
use crate::pool::size::Size;

/// The settings of the first word; the second has the others.
pub(super) struct Shape {
    kind: u32,
    width: u32,
    depth: u32,
    shift: u32,
    stride: u32,
}

pub(super) enum Call {
    BeginPut { worker: u32, value: u32 },
    BeginTake { worker: u32 },
    Step { worker: u32 },
    SetSize(Size),
    End,
}

/// Kind 1: bits 0-4 w, 5-11 d, 12-18 s, 19 pile, 20-23 stride.
pub(super) fn first(word: u32) -> Option<Shape> {
    if kind(word) != 1 || bits(word, 24, 27) != 0 {
        return None;
    }
    Some(Shape {
        kind: bits(word, 19, 19),
        width: bits(word, 0, 4),
        depth: bits(word, 5, 11),
        shift: bits(word, 12, 18),
        stride: bits(word, 20, 23),
    })
}

/// Kind 2: bits 0-10 R, 11-16 n.
pub(super) fn second(shape: Shape, word: u32) -> Option<Settings> {
    if kind(word) != 2 || bits(word, 17, 27) != 0 {
        return None;
    }
    Some(Settings {
        kind: shape.kind,
        width: shape.width,
        depth: shape.depth,
        shift: shape.shift,
        rows: bits(word, 0, 10),
        workers: bits(word, 11, 16),
        stride: shape.stride,
    })
}

/// Kind 3 begin put, 4 begin take, 5 step, 6 the end; and where windows have sizes 8,
/// bits 0-4 width, 5-11 depth.
pub(super) fn call(edition: Edition, word: u32) -> Option<Call> {
    let worker = bits(word, 22, 27);
    match kind(word) {
        3 => Some(Call::BeginPut {
            worker,
            value: bits(word, 0, 21),
        }),
        4 if bits(word, 0, 21) == 0 => Some(Call::BeginTake { worker }),
        5 if bits(word, 0, 21) == 0 => Some(Call::Step { worker }),
        6 if bits(word, 0, 27) == 0 => Some(Call::End),
        8 if edition.has_sizes() && bits(word, 12, 27) == 0 => Some(Call::SetSize(Size {
            width: bits(word, 0, 4),
            depth: bits(word, 5, 11),
        })),
        _ => None,
    }
}

fn kind(word: u32) -> u32 {
    bits(word, 28, 31)
}

fn bits(word: u32, low: u32, high: u32) -> u32 {
    (word >> low) & ((1 << (high - low + 1)) - 1)
}
