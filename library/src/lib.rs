//! Leg sheets: bordered ASCII tables of nested rows and columns, printed by proved code.
//!
//! ```
//! use leg_sheet::{Refusal, Settings, Sheet, Tree};
//!
//! let tree = Tree::column(["leg 1".into(), Tree::row(["a", "b"])]);
//! let sheet = Sheet::new(Settings::default(), tree)?;
//! assert_eq!(
//!     sheet.print()?,
//!     "+-------+\n\
//!      | leg 1 |\n\
//!      +---+---+\n\
//!      | a | b |\n\
//!      +---+---+"
//! );
//!
//! let wide = Sheet::new(Settings::default(), Tree::from("x".repeat(397)))?;
//! assert_eq!(wide.print(), Err(Refusal::TooLarge));
//! # Ok::<(), Refusal>(())
//! ```
//!
//! A tree may also be typed as plain text, a row, column or text to a line:
//!
//! ```
//! use leg_sheet::{Tree, TypedFault};
//!
//! let tree = Tree::from_typed("column\n  leg 1\n  row\n    a\n    b\n")?;
//! assert_eq!(tree, Tree::column(["leg 1".into(), Tree::row(["a", "b"])]));
//! # Ok::<(), TypedFault>(())
//! ```
//!
//! A [`Sheet`] has [`Settings`] and a [`Tree`]; the functions here take the two, or a [`Plan`], and answer values; those of [`Input`] take them as bytes; those of [`calls`] take bytes and
//! write to buffers that the caller lends. A [`DraftStore`] keeps trees in such a buffer. Under all of them are the same proved functions, which decide every refusal and
//! write every byte: this crate encodes values to bytes and decodes what was written.

#![deny(missing_docs, clippy::undocumented_unsafe_blocks)]

pub mod calls;
mod drafts;
mod input;
mod lines;
mod nodes;
mod plan;
mod raw;
mod records;
mod refusal;
mod settings;
mod sheet;
mod starts;
mod tree;
mod typed;
mod values;

pub use drafts::{Draft, DraftStore};
pub use input::Input;
pub use lines::{typed_lines, LineKind, TypedLine};
pub use nodes::{Node, Nodes};
pub use plan::Plan;
pub use records::{
    next_sibling, CutAnswer, CutPair, CutParts, Flags, Folded, LeafPlace, LeafRecord, List, Marked,
    Need, Place, Planned, Positions, ShortParts, SizeRecord, SplitList,
};
pub use refusal::{PlacesRefusal, Refusal};
pub use settings::{Alignment, Marks, Priority, Settings, Sides, Word, WordFault};
pub use sheet::Sheet;
pub use tree::Tree;
pub use typed::TypedFault;
pub use values::{
    blank, fold, leaf_record, place, places, plan, print_leaf, print_sheet, share, short_splits,
    short_splits3, short_splits3_in_place, sizes, widen,
};

/// The examples of the README are run, too.
#[cfg(doctest)]
#[doc = include_str!("../README.md")]
struct Readme;
