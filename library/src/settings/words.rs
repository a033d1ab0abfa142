//! The settings by name, and the values allowed for each.

use super::value::greatest;
use super::{Alignment, Marks, Priority, Settings, Sides, ASCII};
use crate::refusal::Refusal;

/// A setting that can be named in words, as `margin 8 0 1 0`.
#[derive(Debug)]
pub struct Word {
    name: &'static str,
    pub(super) kind: Kind,
}

/// The forms of a value.
#[derive(Debug)]
pub(super) enum Kind {
    /// A number for each side, or one for all.
    Sizes(SetSides, fn(&Settings) -> Sides),
    /// A character for each side, or one for all.
    Fills(SetSides, fn(&Settings) -> Sides),
    /// Fifteen characters, or the name of some.
    Marks,
    /// One of these names, by its index.
    Choice(
        &'static [&'static str],
        fn(Settings, usize) -> Settings,
        fn(&Settings) -> usize,
    ),
}

/// What sets four bytes for the sides, where they are within their ranges.
pub(super) type SetSides = fn(Settings, Sides) -> Result<Settings, Refusal>;

/// The marks that have a name. Those of the figures are different ones, so that each can be seen.
pub(super) const NAMED: [(&str, [u8; 15]); 2] = [("ascii", ASCII), ("figure", *b"-_()hv123456789")];

/// In the order in which they are listed.
const WORDS: &[Word] = &[
    Word::new(
        "margin",
        Kind::Sizes(Settings::with_margin, Settings::margin),
    ),
    Word::new(
        "margin-fill",
        Kind::Fills(Settings::with_margin_fills, Settings::margin_fills),
    ),
    Word::new(
        "lines",
        Kind::Choice(&["yes", "no"], with_lines, |settings| {
            usize::from(settings.marks == Marks::None)
        }),
    ),
    Word::new("marks", Kind::Marks),
    Word::new(
        "padding",
        Kind::Sizes(Settings::with_padding, Settings::padding),
    ),
    Word::new(
        "padding-fill",
        Kind::Fills(Settings::with_fills, Settings::fills),
    ),
    Word::new(
        "align",
        Kind::Choice(
            &["left", "center", "right"],
            |settings, at| settings.with_horizontal(Alignment::of(at as u8)),
            |settings| settings.horizontal as usize,
        ),
    ),
    Word::new(
        "align-lines",
        Kind::Choice(
            &["together", "each"],
            |settings, at| settings.with_line_mode(at == 1),
            |settings| settings.line_mode.into(),
        ),
    ),
    Word::new(
        "vertical",
        Kind::Choice(
            &["top", "center", "bottom"],
            |settings, at| settings.with_vertical(Alignment::of(at as u8)),
            |settings| settings.vertical as usize,
        ),
    ),
    Word::new(
        "spare-width",
        Kind::Choice(
            SPARE,
            |settings, at| settings.with_width_priority(Priority::of(at as u8)),
            |settings| settings.width_priority as usize,
        ),
    ),
    Word::new(
        "spare-height",
        Kind::Choice(
            SPARE,
            |settings, at| settings.with_height_priority(Priority::of(at as u8)),
            |settings| settings.height_priority as usize,
        ),
    ),
];

/// First, Last, List.
const SPARE: &[&str] = &["first", "last", "all"];

/// With lines, which have the default marks where there were none, or without.
fn with_lines(settings: Settings, no: usize) -> Settings {
    let marks = match settings.marks {
        _ if no == 1 => Marks::None,
        Marks::None => Marks::All(ASCII),
        marks => marks,
    };
    Settings { marks, ..settings }
}

impl Word {
    const fn new(name: &'static str, kind: Kind) -> Word {
        Word { name, kind }
    }

    /// Every setting that has a name, in the order in which [`Settings::words`] lists them.
    #[must_use]
    pub const fn all() -> &'static [Word] {
        WORDS
    }

    /// The setting's name.
    #[must_use]
    pub const fn name(&self) -> &'static str {
        self.name
    }

    /// The values allowed behind the name.
    #[must_use]
    pub fn values(&self) -> String {
        match self.kind {
            Kind::Sizes(set, _) => {
                let greatest = greatest(set);
                format!("left right top bottom, 0 to {greatest}, or one number for all")
            }
            Kind::Fills(..) => "left right top bottom, or one character for all".into(),
            Kind::Marks => {
                let names: Vec<&str> = NAMED.iter().map(|(name, _)| *name).collect();
                format!("fifteen characters, or {}", names.join(", "))
            }
            Kind::Choice(names, ..) => names.join(", "),
        }
    }
}
