//! The sequential specification: the paper's one-at-a-time list. It holds
//! items, each a value and a stamp, and counts puts.

use super::fed::Fed;
use super::history::Operation;
use crate::answer::{EMPTY, FULL, PUT, TAKEN};
use crate::bounds::full_bound;
use crate::pool::phase::Side;
use crate::pool::settings::{Settings, QUEUE};
use crate::spacer::SPACER;

#[derive(Clone, Copy)]
struct Item {
    stamp: u32,
    value: u32,
}

/// What feeding an operation changed, to take it back.
pub(super) enum Undo {
    Nothing,
    Joined,
    Left(usize, u32, u32),
}

pub(super) struct Sequential {
    settings: Settings,
    /// A take may pass over this many items, and no more than its own window says.
    most_passed: u32,
    /// In the order of stamps, which is the order of joining.
    items: Vec<Item>,
    puts: u32,
}

/// An answer's value, stamp and distance.
type Given = (u32, u32, u32);

impl Sequential {
    pub fn new(settings: &Settings, most_passed: u32) -> Sequential {
        Sequential {
            settings: *settings,
            most_passed,
            items: Vec::new(),
            puts: 0,
        }
    }

    /// Whether the operation is allowed here, and its answer has the value,
    /// stamp and distance that the list gives.
    pub fn allows(&self, operation: &Operation) -> bool {
        let answer = &operation.answer;
        self.gives(operation) == Some((answer.value, answer.stamp, answer.distance))
    }

    /// Feeds the operation if it is allowed here; else nothing changes.
    pub fn feed(&mut self, operation: &Operation) -> Option<Undo> {
        if !self.allows(operation) {
            return None;
        }
        let answer = &operation.answer;
        Some(match answer.number {
            PUT => {
                self.puts += 1;
                self.items.push(Item {
                    stamp: self.puts,
                    value: operation.value,
                });
                Undo::Joined
            }
            TAKEN => {
                let at = self.find(answer.stamp).expect("the list gave it");
                let item = self.items.remove(at);
                Undo::Left(at, item.stamp, item.value)
            }
            _ => Undo::Nothing,
        })
    }

    pub fn undo(&mut self, undo: Undo) {
        match undo {
            Undo::Nothing => {}
            Undo::Joined => {
                self.puts -= 1;
                self.items.pop();
            }
            Undo::Left(at, stamp, value) => self.items.insert(at, Item { stamp, value }),
        }
    }

    fn gives(&self, operation: &Operation) -> Option<Given> {
        let held = self.items.len();
        match (operation.answer.number, operation.side) {
            (PUT, Side::Put) => Some((operation.value, self.puts + 1, 0)),
            (TAKEN, Side::Take) => self.gives_item(operation.answer.stamp, operation.fed),
            (EMPTY, Side::Take) if held == 0 => Some((0, 0, 0)),
            (FULL, Side::Put) if held >= self.full_with(operation.fed) => Some((0, 0, 0)),
            _ => None,
        }
    }

    /// "An item with the fed stamp must be there, with no more older ones
    /// (line) or newer ones (pile) than demand 3 allows", or than a closer
    /// bound does. Its value plays no part in either count.
    fn gives_item(&self, stamp: u32, fed: Fed) -> Option<Given> {
        let at = self.find(stamp)?;
        let most_passed = match fed {
            Fed::Window(size) => self.most_passed.min(size.distance_bound()),
            _ => self.most_passed,
        };
        let allowed = self.passed_over(at) <= most_passed;
        allowed.then(|| (self.items[at].value, stamp, self.reported(at)))
    }

    /// "4, only for a put: at least demand 3's number of items must be there", which
    /// is the fed one if there is one.
    fn full_with(&self, fed: Fed) -> usize {
        match fed {
            Fed::Places(places) => places as usize,
            _ => full_bound(&self.settings) as usize,
        }
    }

    /// K4: "the limit on items passed over still counts them all".
    fn passed_over(&self, at: usize) -> u32 {
        self.ahead_of(at).len() as u32
    }

    /// K4: "On the one-at-a-time list the reported number skips spacers".
    fn reported(&self, at: usize) -> u32 {
        let ahead = self.ahead_of(at).iter();
        ahead.filter(|item| item.value != SPACER).count() as u32
    }

    /// The older items of a queue, the newer ones of a stack.
    fn ahead_of(&self, at: usize) -> &[Item] {
        if self.settings.kind == QUEUE {
            &self.items[..at]
        } else {
            &self.items[at + 1..]
        }
    }

    fn find(&self, stamp: u32) -> Option<usize> {
        self.items
            .binary_search_by_key(&stamp, |item| item.stamp)
            .ok()
    }
}
