//! The sheet printer of document 01 as it would be written for speed, without proofs: a yardstick for `bench/run`, which holds both printers to the original before it times them. It
//! knows neither margins nor sheets without lines.
//!
//! `lists` (A in the tables): the proved code's algorithm, split lists passed on. `stamps` (B): the fastest algorithm found, crossing marks from the neighbours' ends, over the same flat nodes
//! and the same painter. Nothing is allocated; the scratch is some 10 KiB of stack that is not cleared.

mod canvas;
mod nodes;
mod record;

pub mod lists;
pub mod stamps;

/// The number of document 01's table, and the bytes written.
#[derive(Debug, Clone, Copy, PartialEq, Eq)]
pub struct Answer {
    pub number: u8,
    pub count: usize,
}

fn refused(number: u8) -> Answer {
    Answer { number, count: 0 }
}
