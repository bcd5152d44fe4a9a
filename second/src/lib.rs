//! An ordinary planner, written from the rules alone, to hold the proved library against.
//!
//! `cargo test` needs nothing else. The programs in `bin` link the proved library; the environment
//! variable XIPHOMERA_ARCHIVE gives the path of its static archive.

pub mod brute;
pub mod check;
pub mod frames;
pub mod lists;
pub mod player;
pub mod random;
pub mod tasks;
pub mod verdict;
pub mod walk;

#[cfg(test)]
mod small_tables;
