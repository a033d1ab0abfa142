//! What is refused: by the tables of documents 01 and 02, and in typed lists.

use std::error::Error;
use std::fmt;

/// The enum and its two columns from one line for each refusal.
macro_rules! refusals {
    ($($number:literal $name:ident $sentence:literal,)*) => {
        /// Why a call was refused: a number and a sentence. A refused call has written nothing.
        ///
        /// ```
        /// use leg_sheet::{Refusal, Tree};
        ///
        /// let refusal = Tree::from("a\ttab").to_bytes().unwrap_err();
        /// assert_eq!(refusal, Refusal::BadText);
        /// assert_eq!(refusal.number(), 3);
        /// assert_eq!(refusal.to_string(), "refused 3: a text has a byte other than hex 20 to 7E and 0A");
        /// ```
        #[derive(Debug, Clone, Copy, PartialEq, Eq, Hash)]
        #[non_exhaustive]
        pub enum Refusal {
            $(
                #[doc = concat!($number, ": ", $sentence, ".")]
                $name,
            )*
            /// A word that `include/leg_sheet.h` gives no meaning: the archive that was linked is not of this library's source.
            #[non_exhaustive]
            Unknown(u64),
        }

        impl Refusal {
            /// The refusals of the table, by number.
            pub const TABLE: &'static [Refusal] = &[$(Refusal::$name),*];

            /// The number in the table.
            #[must_use]
            pub const fn number(self) -> u8 {
                match self {
                    $(Refusal::$name => $number,)*
                    Refusal::Unknown(word) => (word >> 32) as u8,
                }
            }

            /// When this is refused, in words.
            #[must_use]
            pub const fn sentence(self) -> &'static str {
                match self {
                    $(Refusal::$name => $sentence,)*
                    Refusal::Unknown(_) => "an answer that this library does not know",
                }
            }
        }
    };
}

refusals! {
    1 BadSettings "the settings are malformed or out of range",
    2 BadTree "the tree is too long, is cut short, or has an unknown tag, a length past the end or bytes after its end",
    3 BadText "a text has a byte other than hex 20 to 7E and 0A",
    4 TooManyNodes "the tree has more than 512 nodes",
    5 TooDeep "the tree is more than 16 deep",
    6 TooLarge "the sheet has over 400 columns or over 160 lines",
    8 TooShort "a lent list or output is shorter than needed",
    9 NoLeaf "the number names no leaf or, where texts are blanked, no Cell",
    10 TooManyPieces "the split list has over 512 pieces",
    11 NoChild "there are no children to share among, or the index is past them",
    12 OutsideSheet "the line or column is outside the printed sheet",
    13 InMargin "the place is in the sheet's margin",
    14 TooManyPlaces "there are over 256 places",
    15 NotAList "the tree is no Column of 1 to 200 Cells",
    16 TooWide "a cell is wider than the given width",
    17 BadRange "a range has a least above its greatest, or a least line count of 0",
    18 BadStore "the store of drafts is malformed",
    19 NoDraft "the name is none of A to H, or no draft has it",
    20 NoRoom "the store has no room for the tree beside the other drafts",
    30 ListTooLong "the list has over 131,072 bytes",
    31 BadCharacter "only ASCII letters, digits, signs and spaces are allowed here: no tab, no accent",
    32 BadEscape "only n or a backslash is allowed after a backslash",
    33 OddIndent "a level is two spaces, and this line begins with an odd number of them",
    34 SecondRoot "a second root: indent every line after the first",
    35 NoParent "too deep: only a row or column has lines inside it, and these are one level deeper",
    36 ListTooDeep "over 16 levels",
    37 ListTooMany "over 512 rows, columns and texts",
    38 ListTooLarge "the list is too long: with this line its tree has over 32,768 bytes",
    39 ListEmpty "the list is empty: no line has a row, a column or a text",
}

impl Refusal {
    /// The refusal in a C function's word: its number above 32 bits, and nothing else.
    pub(crate) fn of_word(word: u64) -> Refusal {
        let mut table = Refusal::TABLE.iter().copied();
        table
            .find(|refusal| u64::from(refusal.number()) << 32 == word)
            .unwrap_or(Refusal::Unknown(word))
    }
}

/// Why a list of places was refused, and for which place, where it was for one.
///
/// ```
/// use leg_sheet::{Place, Refusal, Settings, Sheet, Tree};
///
/// let sheet = Sheet::new(Settings::default(), Tree::from("a"))?;
/// let places = [0, 9].map(|line| Place { line, column: 0 });
/// let refused = sheet.places(&places).unwrap_err();
/// assert_eq!((refused.refusal, refused.place), (Refusal::OutsideSheet, Some(1)));
/// assert_eq!(refused.to_string(), "refused 12: the line or column is outside the printed sheet (place 1 of the list)");
/// # Ok::<(), Refusal>(())
/// ```
#[derive(Debug, Clone, Copy, PartialEq, Eq, Hash)]
pub struct PlacesRefusal {
    /// Why.
    pub refusal: Refusal,
    /// The index of the first place that has no leaf, from 0 on; none where the whole list is refused.
    pub place: Option<usize>,
}

impl From<Refusal> for PlacesRefusal {
    fn from(refusal: Refusal) -> PlacesRefusal {
        let place = None;
        PlacesRefusal { refusal, place }
    }
}

impl From<PlacesRefusal> for Refusal {
    fn from(refused: PlacesRefusal) -> Refusal {
        refused.refusal
    }
}

impl fmt::Display for PlacesRefusal {
    fn fmt(&self, f: &mut fmt::Formatter<'_>) -> fmt::Result {
        write!(f, "{}", self.refusal)?;
        match self.place {
            Some(place) => write!(f, " (place {place} of the list)"),
            None => Ok(()),
        }
    }
}

impl Error for PlacesRefusal {}

impl fmt::Display for Refusal {
    fn fmt(&self, f: &mut fmt::Formatter<'_>) -> fmt::Result {
        write!(f, "refused {}: {}", self.number(), self.sentence())
    }
}

impl Error for Refusal {}

#[cfg(test)]
mod tests {
    use super::*;

    /// From 1 to 20, and 7 is reserved; then those of typed lists, from 30 on.
    #[test]
    fn the_table_is_by_number() {
        let numbers = Refusal::TABLE.iter().map(|refusal| refusal.number());
        let all = (1..=20).chain(30..=39);
        assert!(numbers.eq(all.filter(|&number| number != 7)));
        for &refusal in Refusal::TABLE {
            assert_eq!(Refusal::of_word(u64::from(refusal.number()) << 32), refusal);
        }
    }

    #[test]
    fn an_unknown_word_is_kept() {
        for word in [0x7_0000_0000, 0x1_0000_0001, 0x101_0000_0000] {
            assert_eq!(Refusal::of_word(word), Refusal::Unknown(word));
        }
        assert_eq!(Refusal::of_word(0xFF_0000_0000).number(), 255);
    }
}
