//! The tools of the house.
//!
//! * [`audit`] says what the crates promise, and what a reader would object to.
//! * [`pack`] packs the wrong programs of each crate into as few must-fail edits as will do.
//! * [`edits`] reads the wrong programs, and makes one of them in a copy of the repository.
//! * [`sources`] reads the functions of a crate's sources, for the first two.
//!
//! They rest on the standard library alone, and not on the proved one: they run before anything is built.

pub mod audit;
mod citations;
pub mod edits;
mod files;
mod listed;
pub mod pack;
mod scan;
pub mod sources;

#[cfg(test)]
mod sample;

pub use files::Result;
