//! The settings of a sheet.

mod text;
mod value;
mod words;

pub use text::WordFault;
pub use words::Word;

use crate::calls;
use crate::refusal::Refusal;

/// How a text is aligned in a larger space.
#[derive(Debug, Clone, Copy, Default, PartialEq, Eq, Hash)]
pub enum Alignment {
    /// Left, or at the top.
    #[default]
    Start,
    /// In the middle; of an odd slack the smaller half comes before.
    Center,
    /// Right, or at the bottom.
    End,
}

/// Which children get the spare space.
#[derive(Debug, Clone, Copy, PartialEq, Eq, Hash)]
pub enum Priority {
    /// The first child gets all of it.
    First,
    /// The last child gets all of it.
    Last,
    /// Each child gets an equal part, and the first ones one more where that leaves a rest.
    List,
}

/// The marks of the lines around and between cells.
///
/// ```
/// use leg_sheet::{print_sheet, Marks, Refusal, Settings, Tree};
///
/// let bare = Settings::default().with_marks(Marks::None)?;
/// let tree = Tree::column(["abcdef".into(), Tree::row(["a", "b"])]);
/// assert_eq!(print_sheet(&bare, &tree)?, " abcdef \n a  b   ");
///
/// assert_eq!(Settings::default().marks(), Marks::from(*b"--||-|+++++++++"));
/// let mixed = Marks::All(*b"--||-|++++++++\0");
/// assert_eq!(bare.with_marks(mixed), Err(Refusal::BadSettings));
/// # Ok::<(), Refusal>(())
/// ```
#[derive(Debug, Clone, Copy, PartialEq, Eq, Hash)]
pub enum Marks {
    /// A sheet without lines: no mark is printed, and no column and no line is left for one.
    None,
    /// Top, bottom, left, right, horizontal, vertical, top left, top right, top intersection, bottom left, bottom right, bottom intersection, left
    /// intersection, right intersection, intersection, each hex 20 to 7E. Horizontal and vertical are never printed.
    All([u8; 15]),
}

/// A number for each side.
#[derive(Debug, Clone, Copy, PartialEq, Eq, Hash)]
#[allow(missing_docs)]
pub struct Sides {
    pub left: u8,
    pub right: u8,
    pub top: u8,
    pub bottom: u8,
}

/// What a sheet looks like: marks, padding, alignments, priorities, margin. No value is out of its range.
///
/// ```
/// use leg_sheet::{print_sheet, Alignment, Settings, Sides, Tree};
///
/// let settings = Settings::default()
///     .with_marks(*b"=_()hv123456789")?
///     .with_padding(Sides { left: 3, right: 3, top: 0, bottom: 1 })?
///     .with_horizontal(Alignment::Center);
/// assert_eq!(
///     print_sheet(&settings, &Tree::from("leg 1\nup"))?,
///     "1===========2\n\
///      (   leg 1   )\n\
///      (   up      )\n\
///      (           )\n\
///      4___________5"
/// );
/// assert!(settings.with_padding(Sides { left: 17, ..settings.padding() }).is_err());
///
/// let punched = Settings::default()
///     .with_margin(Sides { left: 3, right: 0, top: 1, bottom: 0 })?
///     .with_margin_fills(Sides { left: b'.', top: b'=', ..Sides::all(b' ') })?;
/// assert_eq!(
///     print_sheet(&punched, &Tree::from("leg 1"))?,
///     "...=========\n\
///      ...+-------+\n\
///      ...| leg 1 |\n\
///      ...+-------+"
/// );
/// # Ok::<(), leg_sheet::Refusal>(())
/// ```
#[derive(Debug, Clone, Copy, PartialEq, Eq, Hash)]
pub struct Settings {
    marks: Marks,
    padding: Sides,
    fills: Sides,
    horizontal: Alignment,
    vertical: Alignment,
    line_mode: bool,
    width_priority: Priority,
    height_priority: Priority,
    margin: Sides,
    margin_fills: Sides,
}

/// The default marks.
const ASCII: [u8; 15] = *b"--||-|+++++++++";

/// The marks without lines, as they are in the record.
const NO_MARKS: [u8; 15] = [0; 15];

/// The margin where there is none: its sizes and its fills.
const NO_MARGIN: [Sides; 2] = [Sides::all(0), Sides::all(b' ')];

impl Alignment {
    /// As the reader has it: 0 is Start, 1 Center.
    fn of(number: u8) -> Alignment {
        match number {
            0 => Alignment::Start,
            1 => Alignment::Center,
            _ => Alignment::End,
        }
    }
}

impl Priority {
    /// As the reader has it: 0 is First, 1 Last.
    fn of(number: u8) -> Priority {
        match number {
            0 => Priority::First,
            1 => Priority::Last,
            _ => Priority::List,
        }
    }
}

impl From<[u8; 15]> for Marks {
    /// Fifteen zeros are no marks.
    fn from(bytes: [u8; 15]) -> Marks {
        match bytes {
            NO_MARKS => Marks::None,
            _ => Marks::All(bytes),
        }
    }
}

impl From<Marks> for [u8; 15] {
    /// As they are in the record.
    fn from(marks: Marks) -> [u8; 15] {
        match marks {
            Marks::None => NO_MARKS,
            Marks::All(bytes) => bytes,
        }
    }
}

impl Sides {
    /// The same on every side.
    #[must_use]
    pub const fn all(number: u8) -> Sides {
        Sides::of([number; 4])
    }

    /// In the record's order.
    const fn of([left, right, top, bottom]: [u8; 4]) -> Sides {
        Sides {
            left,
            right,
            top,
            bottom,
        }
    }

    const fn numbers(self) -> [u8; 4] {
        [self.left, self.right, self.top, self.bottom]
    }
}

impl Default for Settings {
    /// Document 01's defaults with document 02's width priority, Last, and no margin.
    fn default() -> Settings {
        Settings {
            marks: Marks::All(ASCII),
            padding: Sides::of([1, 1, 0, 0]),
            fills: Sides::all(b' '),
            horizontal: Alignment::Start,
            vertical: Alignment::Start,
            line_mode: false,
            width_priority: Priority::Last,
            height_priority: Priority::List,
            margin: NO_MARGIN[0],
            margin_fills: NO_MARGIN[1],
        }
    }
}

impl Settings {
    /// The settings of a record: 31 bytes, or 42 with the margin.
    ///
    /// # Errors
    /// [`BadSettings`](Refusal::BadSettings), where the proved reader refuses it.
    pub fn from_bytes(bytes: &[u8]) -> Result<Settings, Refusal> {
        let (mut out, mut margin) = ([0; calls::SETTINGS], [0; calls::MARGIN]);
        calls::read_settings(bytes, &mut out)?;
        calls::read_margin(bytes, &mut margin)?;
        // The readers write what the record's bytes are.
        let (out, margin) = (out.map(|n| n as u8), margin.map(|n| n as u8));
        let sides = |four: &[u8]| Sides::of([four[0], four[1], four[2], four[3]]);
        Ok(Settings {
            marks: std::array::from_fn(|at| out[at]).into(),
            padding: sides(&out[15..]),
            fills: sides(&out[19..]),
            horizontal: Alignment::of(out[23]),
            vertical: Alignment::of(out[24]),
            line_mode: out[25] == 1,
            width_priority: Priority::of(out[26]),
            height_priority: Priority::of(out[27]),
            margin: sides(&margin),
            margin_fills: sides(&margin[4..]),
        })
    }

    /// The settings record, which every call on bytes accepts: 31 bytes, and 11 more where the margin or a fill of it is other than the default.
    #[must_use]
    pub fn to_bytes(&self) -> Vec<u8> {
        let choices = [
            self.horizontal as u8,
            self.vertical as u8,
            self.line_mode.into(),
            self.width_priority as u8,
            self.height_priority as u8,
        ];
        let marks: [u8; 15] = self.marks.into();
        let sides = [self.padding.numbers(), self.fills.numbers()].concat();
        let mut bytes = [&[0x10, 0, 28], &marks[..], &sides, &choices].concat();
        let margin = [self.margin, self.margin_fills];
        if margin != NO_MARGIN {
            bytes.extend([0x11, 0, 8]);
            bytes.extend(margin.map(Sides::numbers).as_flattened());
        }
        bytes
    }

    /// These, if the proved reader accepts them: it alone knows the ranges.
    fn checked(self) -> Result<Settings, Refusal> {
        Settings::from_bytes(&self.to_bytes())
    }

    /// The marks of the lines, or that there are none.
    #[must_use]
    pub const fn marks(&self) -> Marks {
        self.marks
    }

    /// The columns and lines around a text.
    #[must_use]
    pub const fn padding(&self) -> Sides {
        self.padding
    }

    /// The characters that the padding is filled with.
    #[must_use]
    pub const fn fills(&self) -> Sides {
        self.fills
    }

    /// How a text is aligned in a wider leaf.
    #[must_use]
    pub const fn horizontal(&self) -> Alignment {
        self.horizontal
    }

    /// How a text is aligned in a higher leaf.
    #[must_use]
    pub const fn vertical(&self) -> Alignment {
        self.vertical
    }

    /// Whether each line of a text is aligned by its own width; else all are indented as the widest.
    #[must_use]
    pub const fn line_mode(&self) -> bool {
        self.line_mode
    }

    /// How a Row shares spare width.
    #[must_use]
    pub const fn width_priority(&self) -> Priority {
        self.width_priority
    }

    /// How a Column shares spare height.
    #[must_use]
    pub const fn height_priority(&self) -> Priority {
        self.height_priority
    }

    /// The columns and lines around the whole sheet.
    #[must_use]
    pub const fn margin(&self) -> Sides {
        self.margin
    }

    /// The characters that the margin is filled with; the left and the right one go from the sheet's first line to its last.
    #[must_use]
    pub const fn margin_fills(&self) -> Sides {
        self.margin_fills
    }

    /// Other [marks](Settings::marks), or none: fifteen bytes, each hex 20 to 7E, or [`Marks::None`].
    ///
    /// # Errors
    /// [`BadSettings`](Refusal::BadSettings), where one is out of its range.
    pub fn with_marks(self, marks: impl Into<Marks>) -> Result<Settings, Refusal> {
        let marks = marks.into();
        Settings { marks, ..self }.checked()
    }

    /// Another [padding](Settings::padding), each 0 to 16.
    ///
    /// # Errors
    /// [`BadSettings`](Refusal::BadSettings), where one is out of its range.
    pub fn with_padding(self, padding: Sides) -> Result<Settings, Refusal> {
        Settings { padding, ..self }.checked()
    }

    /// Other [fills](Settings::fills), each hex 20 to 7E.
    ///
    /// # Errors
    /// [`BadSettings`](Refusal::BadSettings), where one is out of its range.
    pub fn with_fills(self, fills: Sides) -> Result<Settings, Refusal> {
        Settings { fills, ..self }.checked()
    }

    /// Another [horizontal alignment](Settings::horizontal).
    #[must_use]
    pub const fn with_horizontal(self, horizontal: Alignment) -> Settings {
        Settings { horizontal, ..self }
    }

    /// Another [vertical alignment](Settings::vertical).
    #[must_use]
    pub const fn with_vertical(self, vertical: Alignment) -> Settings {
        Settings { vertical, ..self }
    }

    /// Another [line mode](Settings::line_mode).
    #[must_use]
    pub const fn with_line_mode(self, line_mode: bool) -> Settings {
        Settings { line_mode, ..self }
    }

    /// Another [width priority](Settings::width_priority).
    #[must_use]
    pub const fn with_width_priority(self, width_priority: Priority) -> Settings {
        Settings {
            width_priority,
            ..self
        }
    }

    /// Another [height priority](Settings::height_priority).
    #[must_use]
    pub const fn with_height_priority(self, height_priority: Priority) -> Settings {
        Settings {
            height_priority,
            ..self
        }
    }

    /// Another [margin](Settings::margin), each 0 to 16.
    ///
    /// # Errors
    /// [`BadSettings`](Refusal::BadSettings), where one is out of its range.
    pub fn with_margin(self, margin: Sides) -> Result<Settings, Refusal> {
        Settings { margin, ..self }.checked()
    }

    /// Other [fills of the margin](Settings::margin_fills), each hex 20 to 7E.
    ///
    /// # Errors
    /// [`BadSettings`](Refusal::BadSettings), where one is out of its range.
    pub fn with_margin_fills(self, margin_fills: Sides) -> Result<Settings, Refusal> {
        Settings {
            margin_fills,
            ..self
        }
        .checked()
    }
}
