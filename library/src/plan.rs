//! The tree of a sheet whose texts are not all known yet.

mod typed;

use std::ops::RangeInclusive;

use crate::calls;
use crate::refusal::Refusal;
use crate::settings::Settings;
use crate::tree::{put, Tree};

/// A planning tree: a tree that has ranges, too, for texts that are to come. A text is a Cell.
///
/// ```
/// use leg_sheet::Plan;
///
/// let plan = Plan::column(["abcd".into(), Plan::range(2..=6, 1..=1)]);
/// let bytes = b"\x03\x00\x0E\x01\x00\x04abcd\x04\x00\x04\x02\x06\x01\x01";
/// assert_eq!(plan.to_bytes()?, bytes);
/// # Ok::<(), leg_sheet::Refusal>(())
/// ```
#[derive(Debug, Clone, PartialEq, Eq, Hash)]
pub enum Plan {
    /// A text that is known; line feeds separate its lines.
    Cell(String),
    /// A text that is to come.
    Range {
        /// The columns of its longest line.
        width: RangeInclusive<u8>,
        /// How many lines it has, 1 at the least.
        lines: RangeInclusive<u8>,
    },
    /// Children side by side.
    Row(Vec<Plan>),
    /// Children one below the other.
    Column(Vec<Plan>),
}

impl From<&str> for Plan {
    fn from(text: &str) -> Plan {
        Plan::Cell(text.into())
    }
}

impl From<String> for Plan {
    fn from(text: String) -> Plan {
        Plan::Cell(text)
    }
}

impl From<Tree> for Plan {
    fn from(tree: Tree) -> Plan {
        match tree {
            Tree::Cell(text) => Plan::Cell(text),
            Tree::Row(children) => Plan::row(children),
            Tree::Column(children) => Plan::column(children),
        }
    }
}

impl Plan {
    /// A text that is to come: this many columns wide, of this many lines.
    #[must_use]
    pub const fn range(width: RangeInclusive<u8>, lines: RangeInclusive<u8>) -> Plan {
        Plan::Range { width, lines }
    }

    /// Children side by side.
    #[must_use]
    pub fn row<T: Into<Plan>>(children: impl IntoIterator<Item = T>) -> Plan {
        Plan::Row(children.into_iter().map(Into::into).collect())
    }

    /// Children one below the other.
    #[must_use]
    pub fn column<T: Into<Plan>>(children: impl IntoIterator<Item = T>) -> Plan {
        Plan::Column(children.into_iter().map(Into::into).collect())
    }

    /// The bytes of the planning tree, which [`calls::plan`] accepts.
    ///
    /// # Errors
    /// [`BadTree`](Refusal::BadTree), [`BadText`](Refusal::BadText), [`TooManyNodes`](Refusal::TooManyNodes), [`TooDeep`](Refusal::TooDeep), [`BadRange`](Refusal::BadRange),
    /// as the proved reader says.
    pub fn to_bytes(&self) -> Result<Vec<u8>, Refusal> {
        let mut bytes = Vec::new();
        self.put(&mut bytes);
        let settings = Settings::default().to_bytes();
        calls::plan(&settings, &bytes, &mut [0; calls::ENDS])?;
        Ok(bytes)
    }

    fn put(&self, bytes: &mut Vec<u8>) {
        let list = |bytes: &mut Vec<u8>, children: &[Plan]| {
            children.iter().for_each(|child| child.put(bytes));
        };
        match self {
            Plan::Cell(text) => put(bytes, 1, |bytes| bytes.extend(text.bytes())),
            Plan::Row(children) => put(bytes, 2, |bytes| list(bytes, children)),
            Plan::Column(children) => put(bytes, 3, |bytes| list(bytes, children)),
            Plan::Range { width, lines } => put(bytes, 4, |bytes| {
                bytes.extend([width.start(), width.end(), lines.start(), lines.end()]);
            }),
        }
    }
}
