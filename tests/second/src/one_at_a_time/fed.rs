//! K8: "For that the one-at-a-time list is fed two things more: with a 2 the width and
//! depth of the window seen at its commit, and with a 4 how many those places are,
//! which is then demand 3's number."

use crate::answer::{Answer, FULL, TAKEN};
use crate::bounds::{places_after_take_window, seen_size};
use crate::pool::edition::Edition;
use crate::pool::settings::Settings;
use crate::pool::size::Size;
use crate::pool::Pool;

/// What is fed with an answer.
#[derive(Clone, Copy, Debug, Default, PartialEq, Eq)]
pub enum Fed {
    /// Of a stack: demand 3's numbers are those of the settings.
    #[default]
    Nothing,
    /// With a 2.
    Window(Size),
    /// With a 4: in the windows after the take window, just before it.
    Places(u32),
}

impl Fed {
    /// By the words of a fit pool just before the step that was answered so.
    pub fn of(edition: Edition, before: &[u32], worker: u32, answer: &Answer) -> Fed {
        if ![TAKEN, FULL].contains(&answer.number) {
            return Fed::Nothing;
        }
        let pool = Pool {
            words: &mut before.to_vec(),
            settings: Settings::of_words(before),
            edition,
        };
        match answer.number {
            _ if !pool.is_queue() => Fed::Nothing,
            TAKEN => Fed::Window(seen_size(&pool, worker)),
            _ => Fed::Places(places_after_take_window(&pool)),
        }
    }
}
