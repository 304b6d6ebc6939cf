//! The pieces in which a program gets a run file through a pipe.

use crate::rng::Rng;
use std::fmt;

#[derive(Clone, Copy, PartialEq, Eq, PartialOrd, Ord)]
pub enum Pieces {
    /// Of so many bytes each.
    Of(usize),
    /// Of 1 to 7 bytes in turn.
    Varying,
}

use Pieces::{Of, Varying};

pub const PIECES: &[Pieces] = &[
    Of(1),
    Of(2),
    Of(3),
    Of(4),
    Of(5),
    Varying,
    Of(4095),
    Of(4096),
    Of(65_537),
];
/// They cut words in all ways.
pub const SMALL: &[Pieces] = PIECES.split_at(6).0;
/// About as much as a page and as a buffer hold.
pub const LARGE: &[Pieces] = PIECES.split_at(6).1;

/// Together an odd number of bytes: each time round they cut the words otherwise.
const VARYING: [usize; 12] = [1, 2, 3, 5, 7, 4, 6, 3, 1, 6, 2, 5];

/// A longer file would be of too many small pieces.
const FEW_BYTES: usize = 300;
/// A shorter one would be of one large piece.
const MANY_BYTES: usize = 4097;

/// For a file of so many bytes; none is the file as it is.
pub fn any(rng: &mut Rng, len: usize) -> Option<Pieces> {
    let in_pieces = rng.chance(67);
    match len {
        0..=FEW_BYTES if in_pieces => Some(rng.pick(SMALL)),
        MANY_BYTES.. if in_pieces => Some(rng.pick(LARGE)),
        _ => None,
    }
}

/// Again and again; where they begin goes by the turn.
pub fn in_turn(pieces: &'static [Pieces], turn: usize) -> impl Iterator<Item = Pieces> {
    pieces.iter().copied().cycle().skip(turn % pieces.len())
}

impl Pieces {
    pub fn largest(&self) -> usize {
        self.sizes().iter().copied().fold(0, usize::max)
    }

    /// The file in them.
    pub fn of<'a>(&self, file: &'a [u8]) -> Vec<&'a [u8]> {
        let mut pieces = Vec::new();
        let mut rest = file;
        for size in self.sizes().iter().cycle() {
            if rest.is_empty() {
                break;
            }
            let (piece, after) = rest.split_at(rest.len().min(*size));
            pieces.push(piece);
            rest = after;
        }
        pieces
    }

    fn sizes(&self) -> &[usize] {
        match self {
            Of(size) => std::slice::from_ref(size),
            Varying => &VARYING,
        }
    }
}

impl fmt::Display for Pieces {
    fn fmt(&self, to: &mut fmt::Formatter) -> fmt::Result {
        match self {
            Of(size) => write!(to, "{size}"),
            Varying => write!(to, "1 to 7"),
        }
    }
}
