//! The programs beside ours, by the rules of document 01 and requests 2026-04 and 2026-08, with a state that is changed in place. They differ
//! in what they work out anew (mending.rs) and in nothing else.

mod file;
mod group;
pub mod mending;
mod net;
mod rank;
mod tree;
mod triple;

pub use file::{listing, run};
