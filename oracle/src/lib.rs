//! The oracle: what tabled 0.22.0's `PoolTable` answers, what documents 01 and 02 answer, and inputs to compare them. README.md says how it is run, FAITHFUL.md what its answers come from.

pub mod bare;
pub mod blanking;
pub mod blanks;
pub mod calls;
pub mod compare;
pub mod drafting;
pub mod drafts;
pub mod folding;
pub mod folds;
pub mod form;
pub mod gen;
pub mod judge;
mod lines;
pub mod original;
pub mod paper;
pub mod places;
pub mod planning;
pub mod plans;
pub mod replay;
pub mod sides;
pub mod typing;
pub mod widening;
pub mod widths;

pub use form::{
    encode_margin, encode_plan, encode_settings, encode_tree, Answer, CutPair, Ends, Flags, Fold,
    Leaf, Margin, Need, Owner, Owners, Plan, Range, Settings, Size, Tree,
};
pub use original::{answer, cut, cut3};
