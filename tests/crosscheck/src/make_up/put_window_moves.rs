//! A script that leaves a take before the last step of its confirm, whose sum will come to 0
//! although the put window has been raised since (K8). The filler fills all subs but the last
//! and takes what it put; the taker finds that last sub bare and confirms it, but for sub 0;
//! then the filler fills the last sub too, and raises the put window.

use super::acts::{puts, takes, Until};
use super::script::Script;
use second::phase::Stage;
use second::Settings;

pub const FILLER: u32 = 0;
/// From make it stands at sub 1: it comes to sub 0 last.
pub const TAKER: u32 = 1;

/// Of a queue with two subs and two workers or more.
pub fn script(settings: Settings) -> Script {
    let acts = vec![
        puts(FILLER, Until::OthersFull),
        takes(FILLER, Until::NoneInReach),
        takes(TAKER, Until::At(Stage::Confirm, settings.width - 1)),
        puts(FILLER, Until::AllFull),
        puts(FILLER, Until::WindowIs(2 * settings.depth)),
    ];
    Script::new(settings, acts)
}
