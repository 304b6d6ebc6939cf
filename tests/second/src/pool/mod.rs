//! Paper 01, The pool's words.

pub mod edition;
pub(crate) mod fit;
mod held;
pub mod layout;
pub mod phase;
pub mod segments;
pub mod settings;
pub mod size;
mod view;
mod windows;
mod worker;

pub(crate) use held::Held;
pub(crate) use view::Pool;
pub(crate) use worker::Worker;
