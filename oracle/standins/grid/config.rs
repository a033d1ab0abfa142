//! Stand-in for `grid::config`: records of plain values with setters and getters. It assumes of the original's own:
//! a new configuration has no marks, no colours, padding and margin 0, horizontal alignment left;
//! `has_left` and the like say whether any mark of that side is set.

use super::ansi::ANSIStr;

include!(concat!(env!("OUT_DIR"), "/config.rs"));

pub use self::compact_multiline_config::CompactMultilineConfig;

#[derive(Debug, Clone, Copy, PartialEq, Eq, PartialOrd, Ord)]
pub enum AlignmentHorizontal {
    Center,
    Left,
    Right,
}

#[derive(Debug, Clone, Copy, PartialEq, Eq, PartialOrd, Ord)]
pub enum AlignmentVertical {
    Center,
    Top,
    Bottom,
}

/// A size and the character that fills it.
#[derive(Debug, Clone, Copy, PartialEq, Eq, PartialOrd, Ord)]
pub struct Indent {
    pub size: usize,
    pub fill: char,
}

impl Indent {
    pub const fn new(size: usize, fill: char) -> Self {
        Self { size, fill }
    }

    pub const fn spaced(size: usize) -> Self {
        Self::new(size, ' ')
    }

    pub const fn zero() -> Self {
        Self::spaced(0)
    }
}

/// Left, right, top, bottom: the order that `table_pool.rs` and `padding/mod.rs` hand to `new`.
#[derive(Debug, Clone, Copy, Default, PartialEq, Eq, PartialOrd, Ord)]
pub struct Sides<T> {
    pub left: T,
    pub right: T,
    pub top: T,
    pub bottom: T,
}

impl<T> Sides<T> {
    pub const fn new(left: T, right: T, top: T, bottom: T) -> Self {
        Self {
            left,
            right,
            top,
            bottom,
        }
    }
}

/// Only `allow_lines_alignment` is read: document 01's line mode.
#[derive(Debug, Clone, Copy, Default, PartialEq, Eq, PartialOrd, Ord)]
pub struct Formatting {
    pub horizontal_trim: bool,
    pub vertical_trim: bool,
    pub allow_lines_alignment: bool,
}

impl Formatting {
    pub const fn new(horizontal_trim: bool, vertical_trim: bool, lines_alignment: bool) -> Self {
        Self {
            horizontal_trim,
            vertical_trim,
            allow_lines_alignment: lines_alignment,
        }
    }
}

/// The fifteen marks.
#[derive(Debug, Clone, Copy, PartialEq, Eq, PartialOrd, Ord, Hash)]
pub struct Borders<T> {
    pub top: Option<T>,
    pub top_left: Option<T>,
    pub top_right: Option<T>,
    pub top_intersection: Option<T>,
    pub bottom: Option<T>,
    pub bottom_left: Option<T>,
    pub bottom_right: Option<T>,
    pub bottom_intersection: Option<T>,
    pub horizontal: Option<T>,
    pub left_intersection: Option<T>,
    pub right_intersection: Option<T>,
    pub vertical: Option<T>,
    pub left: Option<T>,
    pub right: Option<T>,
    pub intersection: Option<T>,
}

impl<T> Borders<T> {
    pub const fn empty() -> Self {
        Self {
            top: None,
            top_left: None,
            top_right: None,
            top_intersection: None,
            bottom: None,
            bottom_left: None,
            bottom_right: None,
            bottom_intersection: None,
            horizontal: None,
            left_intersection: None,
            right_intersection: None,
            vertical: None,
            left: None,
            right: None,
            intersection: None,
        }
    }

    pub const fn has_top(&self) -> bool {
        self.top.is_some()
            || self.top_left.is_some()
            || self.top_right.is_some()
            || self.top_intersection.is_some()
    }

    pub const fn has_bottom(&self) -> bool {
        self.bottom.is_some()
            || self.bottom_left.is_some()
            || self.bottom_right.is_some()
            || self.bottom_intersection.is_some()
    }

    pub const fn has_left(&self) -> bool {
        self.left.is_some()
            || self.top_left.is_some()
            || self.bottom_left.is_some()
            || self.left_intersection.is_some()
    }

    pub const fn has_right(&self) -> bool {
        self.right.is_some()
            || self.top_right.is_some()
            || self.bottom_right.is_some()
            || self.right_intersection.is_some()
    }

    pub const fn has_horizontal(&self) -> bool {
        self.horizontal.is_some()
            || self.left_intersection.is_some()
            || self.right_intersection.is_some()
            || self.intersection.is_some()
    }

    pub const fn has_vertical(&self) -> bool {
        self.vertical.is_some()
            || self.top_intersection.is_some()
            || self.bottom_intersection.is_some()
            || self.intersection.is_some()
    }
}

/// The marks of one cell.
#[derive(Debug, Clone, Copy, PartialEq, Eq, PartialOrd, Ord)]
pub struct Border<T> {
    pub top: Option<T>,
    pub bottom: Option<T>,
    pub left: Option<T>,
    pub right: Option<T>,
    pub left_top_corner: Option<T>,
    pub left_bottom_corner: Option<T>,
    pub right_top_corner: Option<T>,
    pub right_bottom_corner: Option<T>,
}

impl<T> Border<T> {
    pub const fn has_top(&self) -> bool {
        self.top.is_some() || self.left_top_corner.is_some() || self.right_top_corner.is_some()
    }

    pub const fn has_bottom(&self) -> bool {
        self.bottom.is_some()
            || self.left_bottom_corner.is_some()
            || self.right_bottom_corner.is_some()
    }

    pub const fn has_left(&self) -> bool {
        self.left.is_some() || self.left_top_corner.is_some() || self.left_bottom_corner.is_some()
    }

    pub const fn has_right(&self) -> bool {
        self.right.is_some()
            || self.right_top_corner.is_some()
            || self.right_bottom_corner.is_some()
    }
}

/// A line across, for `style/builder.rs`.
#[derive(Debug, Clone, Copy, Default, PartialEq, Eq, PartialOrd, Ord, Hash)]
pub struct HorizontalLine<T> {
    pub main: Option<T>,
    pub intersection: Option<T>,
    pub left: Option<T>,
    pub right: Option<T>,
}

impl<T> HorizontalLine<T> {
    pub const fn new(
        main: Option<T>,
        intersection: Option<T>,
        left: Option<T>,
        right: Option<T>,
    ) -> Self {
        Self {
            main,
            intersection,
            left,
            right,
        }
    }

    pub const fn empty() -> Self {
        Self::new(None, None, None, None)
    }
}

impl HorizontalLine<char> {
    pub const fn full(main: char, intersection: char, left: char, right: char) -> Self {
        Self::new(Some(main), Some(intersection), Some(left), Some(right))
    }
}

/// A line down, for `style/builder.rs`.
#[derive(Debug, Clone, Copy, Default, PartialEq, Eq, PartialOrd, Ord, Hash)]
pub struct VerticalLine<T> {
    pub main: Option<T>,
    pub intersection: Option<T>,
    pub top: Option<T>,
    pub bottom: Option<T>,
}

impl<T> VerticalLine<T> {
    pub const fn new(
        main: Option<T>,
        intersection: Option<T>,
        top: Option<T>,
        bottom: Option<T>,
    ) -> Self {
        Self {
            main,
            intersection,
            top,
            bottom,
        }
    }

    pub const fn empty() -> Self {
        Self::new(None, None, None, None)
    }
}

/// What an option may touch; the option's own hint, which the stand-in `Table` ignores.
#[derive(Debug, Clone, Copy, PartialEq, Eq)]
pub enum Entity {
    Global,
}

#[derive(Debug, Clone, Copy, PartialEq, Eq, PartialOrd, Ord)]
pub struct CompactConfig {
    borders: Borders<char>,
    borders_color: Borders<ANSIStr<'static>>,
    margin: Sides<Indent>,
    margin_color: Sides<ANSIStr<'static>>,
    padding: Sides<Indent>,
    padding_color: Sides<ANSIStr<'static>>,
    alignment: AlignmentHorizontal,
}

const NO_INDENT: Sides<Indent> = Sides::new(
    Indent::zero(),
    Indent::zero(),
    Indent::zero(),
    Indent::zero(),
);

const NO_COLOR: Sides<ANSIStr<'static>> = Sides::new(
    ANSIStr::empty(),
    ANSIStr::empty(),
    ANSIStr::empty(),
    ANSIStr::empty(),
);

impl CompactConfig {
    pub const fn new() -> Self {
        Self {
            borders: Borders::empty(),
            borders_color: Borders::empty(),
            margin: NO_INDENT,
            margin_color: NO_COLOR,
            padding: NO_INDENT,
            padding_color: NO_COLOR,
            alignment: AlignmentHorizontal::Left,
        }
    }

    pub const fn set_margin(mut self, margin: Sides<Indent>) -> Self {
        self.margin = margin;
        self
    }

    pub const fn get_margin(&self) -> &Sides<Indent> {
        &self.margin
    }

    pub const fn set_borders(mut self, borders: Borders<char>) -> Self {
        self.borders = borders;
        self
    }

    pub const fn get_borders(&self) -> &Borders<char> {
        &self.borders
    }

    pub const fn set_borders_color(mut self, borders: Borders<ANSIStr<'static>>) -> Self {
        self.borders_color = borders;
        self
    }

    pub const fn get_borders_color(&self) -> &Borders<ANSIStr<'static>> {
        &self.borders_color
    }

    pub const fn set_padding(mut self, padding: Sides<Indent>) -> Self {
        self.padding = padding;
        self
    }

    pub const fn get_padding(&self) -> &Sides<Indent> {
        &self.padding
    }

    pub const fn set_alignment_horizontal(mut self, alignment: AlignmentHorizontal) -> Self {
        self.alignment = alignment;
        self
    }

    pub const fn get_alignment_horizontal(&self) -> AlignmentHorizontal {
        self.alignment
    }

    pub const fn set_margin_color(mut self, color: Sides<ANSIStr<'static>>) -> Self {
        self.margin_color = color;
        self
    }

    pub const fn get_margin_color(&self) -> &Sides<ANSIStr<'static>> {
        &self.margin_color
    }

    pub const fn set_padding_color(mut self, color: Sides<ANSIStr<'static>>) -> Self {
        self.padding_color = color;
        self
    }

    pub const fn get_padding_color(&self) -> &Sides<ANSIStr<'static>> {
        &self.padding_color
    }
}

impl Default for CompactConfig {
    fn default() -> Self {
        Self::new()
    }
}
