//! Typed lists: a tree as plain text, a row, column or text to a line, and what is wrong with such a text.

use std::error::Error;
use std::fmt;

use crate::calls;
use crate::refusal::Refusal;
use crate::tree::Tree;

/// The first fault of a typed list: what is wrong, and at which line and column, both counted from 1 and in bytes. Both are 0 where the fault has no place.
///
/// ```
/// use leg_sheet::{Refusal, Tree};
///
/// let fault = Tree::from_typed("row\n   Home pad\n").unwrap_err();
/// assert_eq!((fault.refusal, fault.line, fault.column), (Refusal::OddIndent, 2, 4));
/// assert_eq!(
///     fault.to_string(),
///     "line 2, column 4: a level is two spaces, and this line begins with an odd number of them"
/// );
/// ```
#[derive(Debug, Clone, Copy, PartialEq, Eq, Hash)]
pub struct TypedFault {
    /// What is wrong: 30 to 39, or 8.
    pub refusal: Refusal,
    /// The line, from 1 on; 0 where there is none.
    pub line: u32,
    /// The column, from 1 on; 0 where there is none.
    pub column: u32,
}

impl TypedFault {
    /// The fault in the word of `leg_read_typed`: its line above 40 bits, its number above 32, its column below.
    pub(crate) fn of_word(word: u64) -> TypedFault {
        TypedFault {
            refusal: Refusal::of_word(word & 0xFF_0000_0000),
            line: (word >> 40) as u32,
            column: word as u32,
        }
    }
}

impl fmt::Display for TypedFault {
    fn fmt(&self, f: &mut fmt::Formatter<'_>) -> fmt::Result {
        if self.line > 0 {
            write!(f, "line {}, column {}: ", self.line, self.column)?;
        }
        f.write_str(self.refusal.sentence())
    }
}

impl Error for TypedFault {}

impl Tree {
    /// The tree of a typed list.
    ///
    /// ```
    /// use leg_sheet::Tree;
    ///
    /// let list = "# a leg\n\
    ///             row\n\
    ///             \x20 1\n\
    ///             \x20 column\n\
    ///             \x20   Home pad\n\
    ///             \x20   'row\n\
    ///             \x20 take off\\nhold 10 s\n";
    /// let names = Tree::column(["Home pad", "row"]);
    /// let leg = Tree::row(["1".into(), names, "take off\nhold 10 s".into()]);
    /// assert_eq!(Tree::from_typed(list), Ok(leg));
    /// ```
    ///
    /// # Errors
    /// [`ListTooLong`](Refusal::ListTooLong), [`BadCharacter`](Refusal::BadCharacter), [`BadEscape`](Refusal::BadEscape), [`OddIndent`](Refusal::OddIndent),
    /// [`SecondRoot`](Refusal::SecondRoot), [`NoParent`](Refusal::NoParent), [`ListTooDeep`](Refusal::ListTooDeep), [`ListTooMany`](Refusal::ListTooMany),
    /// [`ListTooLarge`](Refusal::ListTooLarge), [`ListEmpty`](Refusal::ListEmpty), as the proved reader says.
    pub fn from_typed(text: impl AsRef<[u8]>) -> Result<Tree, TypedFault> {
        let mut out = vec![0; calls::TREE];
        let count = calls::read_typed(text.as_ref(), &mut out)?;
        Ok(Tree::from_bytes(&out[..count]).expect("what was written is a tree"))
    }

    /// The tree as a typed list: each node on its line, a text with the quote mark where it would be read as something else without. A tree that
    /// [`to_bytes`](Tree::to_bytes) accepts comes back by [`from_typed`](Tree::from_typed).
    ///
    /// ```
    /// use leg_sheet::Tree;
    ///
    /// let tree = Tree::row(["a\nb", "column", ""]);
    /// assert_eq!(tree.typed(), "row\n  a\\nb\n  'column\n  '\n");
    /// ```
    #[must_use]
    pub fn typed(&self) -> String {
        let mut text = String::new();
        self.type_at(0, &mut text);
        text
    }

    fn type_at(&self, level: usize, text: &mut String) {
        let (line, children) = match self {
            Tree::Cell(text) => (line(text), &[][..]),
            Tree::Row(children) => ("row".into(), &children[..]),
            Tree::Column(children) => ("column".into(), &children[..]),
        };
        *text += &"  ".repeat(level);
        *text += &line;
        text.push('\n');
        for child in children {
            child.type_at(level + 1, text);
        }
    }
}

/// A text as it is typed, behind the spaces of its line.
fn line(text: &str) -> String {
    let quote = if is_plain(text) { "" } else { "'" };
    let escaped = text.replace('\\', "\\\\").replace('\n', "\\n");
    format!("{quote}{escaped}")
}

/// Whether a text needs no quote mark: it is no word, no comment, no blank line, and begins with neither a space nor a quote mark.
fn is_plain(text: &str) -> bool {
    !["", "row", "column"].contains(&text) && !text.starts_with([' ', '#', '\''])
}
