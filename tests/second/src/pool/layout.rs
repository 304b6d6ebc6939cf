//! Paper 01, The pool's words: where each word stands.

use super::edition::Edition;

pub const KIND: usize = 0;
pub const WIDTH: usize = 1;
pub const DEPTH: usize = 2;
pub const SHIFT: usize = 3;
pub const ROWS: usize = 4;
pub const WORKERS: usize = 5;
pub const STEPS_COUNTED: usize = 6;
pub const PUTS_MADE: usize = 7;

/// Queue: the put window, P.
pub const PUT_WINDOW: usize = 8;
/// Queue: the take window, T.
pub const TAKE_WINDOW: usize = 9;
/// Stack: the window, G.
pub const WINDOW: usize = 8;
/// Stack: the window's version.
pub const WINDOW_VERSION: usize = 9;

pub const STRIDE: usize = 10;
pub const EDITION: usize = 11;
pub const HEADER_WORDS: usize = 12;

/// Two words per sub. Queue: items put and items taken; K8: "per-sub counts become
/// last rows", the last put row and the last taken row.
pub const ITEMS_PUT: usize = 0;
pub const ITEMS_TAKEN: usize = 1;
/// Stack: items held and version.
pub const ITEMS_HELD: usize = 0;
pub const VERSION: usize = 1;
pub const SUB_WORDS: usize = 2;

/// Eight words per worker, and from edition to edition more.
pub const PHASE: usize = 0;
pub const VALUE: usize = 1;
pub const INDEX: usize = 2;
pub const SEEN_WINDOW: usize = 3;
pub const EXTRA: usize = 4;
pub const SCAN: usize = 5;
pub const SEEN: usize = 6;
pub const SUM: usize = 7;
/// K5: since make.
pub const FAILED_COMMITS: usize = 8;
/// K8: of the seen window.
pub const SEEN_BOTTOM: usize = 9;
pub const SEEN_WIDTH: usize = 10;
/// In the current edition.
pub const WORKER_WORDS: usize = Edition::CURRENT.worker_words();

/// Two words per cell.
pub const CELL_VALUE: usize = 0;
pub const CELL_STAMP: usize = 1;
pub const CELL_WORDS: usize = 2;

/// K8, after the cells: the next width and depth, 1 once a size was set, and the
/// number of live windows.
pub const NEXT_WIDTH: usize = 0;
pub const NEXT_DEPTH: usize = 1;
pub const SIZE_SET: usize = 2;
pub const LIVE: usize = 3;
/// And their sizes, two words each, from the take window to the put window.
pub const SIZES: usize = 4;
pub const SIZE_WIDTH: usize = 0;
pub const SIZE_DEPTH: usize = 1;
pub const SIZE_WORDS: usize = 2;
pub const MOST_LIVE: u32 = 16;
