//! Typed lists: plain text, one row, column or text to a line, read into a tree's bytes; and a tree typed. It follows the sentences of the form as they were given, which
//! docs/FORMS.md ('Typed lists') has in its own words, and shares no code with the port.

use std::iter::Peekable;

use crate::form::{encode_tree, Tree};
use crate::judge::{DEPTH, NODES, TREE_BYTES};

/// 'A list has at most 131,072 bytes.'
pub const LIST_BYTES: usize = 131_072;

/// What is wrong, and where: 'line and column count from 1'. Both are 0 where no place is reported.
#[derive(Debug, Clone, Copy, PartialEq, Eq)]
pub struct Fault {
    pub number: u8,
    pub line: usize,
    pub column: usize,
}

impl Fault {
    /// 30 and 8: of no line.
    fn nowhere(number: u8) -> Fault {
        Fault {
            number,
            line: 0,
            column: 0,
        }
    }
}

/// What a line names.
enum Node {
    Cell(Vec<u8>),
    Row,
    Column,
}

/// The lines. 'The last line may have a line feed or not. A carriage return at a line's end is taken off.'
fn lines(list: &[u8]) -> impl Iterator<Item = &[u8]> {
    let lines = list.split(|&byte| byte == 0x0A);
    lines.map(|line| line.strip_suffix(b"\r").unwrap_or(line))
}

/// 'The line's first bad byte': 31 or 32, and how many bytes are before it. For a byte behind a backslash that no text may have the sentences do not say which of the two it is; here
/// it is 32 (FAITHFUL.md, 'Differences found').
fn bad_byte(line: &[u8]) -> Option<(u8, usize)> {
    let mut is_escaped = false;
    for (at, &byte) in line.iter().enumerate() {
        // 'After a backslash only `n` or a backslash may stand.'
        if is_escaped && !b"n\\".contains(&byte) {
            return Some((32, at));
        }
        // 'Texts have the characters of document 01 (hex 20 to 7E).'
        if !(0x20..=0x7E).contains(&byte) {
            return Some((31, at));
        }
        is_escaped = byte == b'\\' && !is_escaped;
    }
    // 'The byte after the backslash, or the line's end.'
    is_escaped.then_some((32, line.len()))
}

/// '`\n` in a text is a line feed, `\\` a backslash.'
fn unescaped(typed: &[u8]) -> Vec<u8> {
    let mut bytes = typed.iter();
    let mut text = Vec::new();
    while let Some(&byte) = bytes.next() {
        let is_feed = byte == b'\\' && bytes.next() == Some(&b'n');
        text.push(if is_feed { 0x0A } else { byte });
    }
    text
}

/// 'A line that is exactly `row` or `column` opens a group; every other line is a Cell with that text. A leading `'` is taken off.'
fn node(typed: &[u8]) -> Node {
    match typed {
        b"row" => Node::Row,
        b"column" => Node::Column,
        _ => Node::Cell(unescaped(typed.strip_prefix(b"'").unwrap_or(typed))),
    }
}

/// The nodes that the lines so far name, each with the levels above it, and the bytes of their tree.
#[derive(Default)]
struct Typed {
    nodes: Vec<(usize, Node)>,
    bytes: usize,
}

impl Typed {
    /// The most levels above the next node: 'only a row or column has lines inside it, and these are one level deeper'.
    fn most(&self) -> usize {
        match self.nodes.last() {
            None => 0,
            Some((level, Node::Cell(_))) => *level,
            Some((level, _)) => level + 1,
        }
    }

    /// 'Then 34, 35, 36, 37, 38 in this order.'
    fn add(&mut self, level: usize, node: Node) -> Result<(), u8> {
        let text = match &node {
            Node::Cell(text) => text.len(),
            _ => 0,
        };
        let bytes = self.bytes + 3 + text;
        let faults = [
            (34, level == 0 && !self.nodes.is_empty()),
            (35, level > self.most()),
            (36, level + 1 > DEPTH),
            (37, self.nodes.len() + 1 > NODES),
            (38, bytes > TREE_BYTES),
        ];
        if let Some((number, _)) = faults.into_iter().find(|&(_, is_so)| is_so) {
            return Err(number);
        }
        self.nodes.push((level, node));
        self.bytes = bytes;
        Ok(())
    }

    /// A line; or its number and column. 'In one line the bytes come first, left to right, then the indentation, then the line's place.'
    fn line(&mut self, line: &[u8]) -> Result<(), (u8, usize)> {
        let spaces = line.iter().take_while(|&&byte| byte == b' ').count();
        let typed = &line[spaces..];
        // 'Lines that begin with `#` (after any spaces) and blank lines (spaces may stand in them) are skipped.'
        if matches!(typed, [] | [b'#', ..]) {
            return Ok(());
        }
        if let Some((number, before)) = bad_byte(line) {
            return Err((number, before + 1));
        }
        // 'The first byte after the spaces, as for all below.'
        let column = spaces + 1;
        if spaces % 2 == 1 {
            return Err((33, column));
        }
        let added = self.add(spaces / 2, node(typed));
        added.map_err(|number| (number, column))
    }
}

/// The tree of the next node: 'its children stand one level deeper'.
fn tree(nodes: &mut Peekable<impl Iterator<Item = (usize, Node)>>) -> Tree {
    let (level, node) = nodes.next().expect("a node");
    let mut children = Vec::new();
    while nodes.peek().is_some_and(|&(other, _)| other > level) {
        children.push(tree(nodes));
    }
    match node {
        Node::Cell(text) => Tree::Cell(text),
        Node::Row => Tree::Row(children),
        Node::Column => Tree::Column(children),
    }
}

/// The tree of a list, or 30 to 39. 'One fault is answered: that of the first line that has one.'
pub fn read(list: &[u8]) -> Result<Tree, Fault> {
    if list.len() > LIST_BYTES {
        return Err(Fault::nowhere(30));
    }
    let mut typed = Typed::default();
    let mut last = 0;
    for line in lines(list) {
        last += 1;
        let read = typed.line(line);
        read.map_err(|(number, column)| Fault {
            number,
            line: last,
            column,
        })?;
    }
    // 'No root: no line names a node'; its place is 'the last line'.
    if typed.nodes.is_empty() {
        return Err(Fault {
            number: 39,
            line: last,
            column: 1,
        });
    }
    Ok(tree(&mut typed.nodes.into_iter().peekable()))
}

/// The bytes of the tree, for a buffer of this many; or its fault, '8 last'.
pub fn read_into(list: &[u8], buffer: usize) -> Result<Vec<u8>, Fault> {
    let tree = encode_tree(&read(list)?);
    if buffer < tree.len() {
        return Err(Fault::nowhere(8));
    }
    Ok(tree)
}

/// 'One mark serves words, `#`, spaces in front and the empty Cell', and itself.
fn needs_mark(text: &[u8]) -> bool {
    matches!(
        text,
        [] | b"row" | b"column" | [b'\'', ..] | [b'#', ..] | [b' ', ..]
    )
}

/// A text as it is typed behind the mark.
fn escaped(text: &[u8]) -> Vec<u8> {
    let mut typed = Vec::with_capacity(text.len());
    for &byte in text {
        match byte {
            0x0A => typed.extend(b"\\n"),
            b'\\' => typed.extend(b"\\\\"),
            _ => typed.push(byte),
        }
    }
    typed
}

/// The lines of a tree, without their ends; a Cell's text has its mark where it needs one or `is_marked` says so.
pub fn lines_of(tree: &Tree, is_marked: &mut impl FnMut() -> bool) -> Vec<Vec<u8>> {
    fn put(
        tree: &Tree,
        level: usize,
        is_marked: &mut impl FnMut() -> bool,
        lines: &mut Vec<Vec<u8>>,
    ) {
        let typed = match tree {
            Tree::Row(_) => b"row".to_vec(),
            Tree::Column(_) => b"column".to_vec(),
            Tree::Cell(text) => {
                let mark = if is_marked() || needs_mark(text) {
                    "'"
                } else {
                    ""
                };
                [mark.as_bytes(), &escaped(text)].concat()
            }
        };
        lines.push([b"  ".repeat(level), typed].concat());
        for child in tree.children() {
            put(child, level + 1, is_marked, lines);
        }
    }

    let mut lines = Vec::new();
    put(tree, 0, is_marked, &mut lines);
    lines
}

/// The quote marks of a list.
#[derive(Debug, Clone, Copy, PartialEq, Eq)]
pub enum Marks {
    /// Where a text needs one.
    Short,
    /// Before every text.
    Full,
}

/// A tree as a list, each line with its line feed.
pub fn type_of(tree: &Tree, marks: Marks) -> Vec<u8> {
    let lines = lines_of(tree, &mut || marks == Marks::Full);
    let ended = lines.into_iter().map(|line| [&line[..], b"\n"].concat());
    ended.collect::<Vec<_>>().concat()
}
