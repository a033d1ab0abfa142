//! The lines of a typed list, as an editor counts them.

/// What a line of a typed list is.
#[derive(Debug, Clone, Copy, PartialEq, Eq, Hash)]
pub enum LineKind {
    /// Nothing but spaces.
    Blank,
    /// A `#` that is first, or behind spaces alone.
    Comment,
    /// The word `row`.
    Row,
    /// The word `column`.
    Column,
    /// Anything else.
    Text,
}

/// A line of a typed list. Whether the list is accepted is for the proved reader to say.
#[derive(Debug, Clone, Copy, PartialEq, Eq, Hash)]
pub struct TypedLine<'a> {
    /// The line's number, from 1 on.
    pub number: usize,
    /// The spaces in front.
    pub spaces: usize,
    /// What follows them; a carriage return at the line's end is taken off.
    pub typed: &'a [u8],
}

impl TypedLine<'_> {
    /// What the line is.
    #[must_use]
    pub fn kind(&self) -> LineKind {
        match self.typed {
            b"" => LineKind::Blank,
            [b'#', ..] => LineKind::Comment,
            b"row" => LineKind::Row,
            b"column" => LineKind::Column,
            _ => LineKind::Text,
        }
    }

    /// Whether the line is a node: a row, a column or a text.
    #[must_use]
    pub fn is_node(&self) -> bool {
        !matches!(self.kind(), LineKind::Blank | LineKind::Comment)
    }
}

/// The lines of a typed list. In one that is accepted those that are nodes are in node order: the first is node 0.
///
/// ```
/// use leg_sheet::typed_lines;
///
/// let list = "# a leg\nrow\n\n  1\n  Home pad\n";
/// let nodes = typed_lines(list.as_bytes()).filter(|line| line.is_node());
/// let numbers: Vec<usize> = nodes.map(|line| line.number).collect();
/// assert_eq!(numbers, [2, 4, 5]);
/// ```
pub fn typed_lines(list: &[u8]) -> impl Iterator<Item = TypedLine<'_>> {
    let lines = list.split(|&byte| byte == b'\n');
    (1..).zip(lines).map(|(number, line)| {
        let line = line.strip_suffix(b"\r").unwrap_or(line);
        let spaces = line.iter().take_while(|&&byte| byte == b' ').count();
        TypedLine {
            number,
            spaces,
            typed: &line[spaces..],
        }
    })
}
