//! The proved library as a side of the oracle's comparison.

mod lent;
pub mod side;
