//! The tree of a sheet.

use crate::calls;
use crate::refusal::Refusal;

/// A sheet's nodes as values. A text is a Cell.
///
/// ```
/// use leg_sheet::Tree;
///
/// let tree = Tree::column(["Home pad".into(), Tree::row(["height", "0 m"])]);
/// let bytes = tree.to_bytes()?;
/// assert_eq!(bytes, b"\x03\x00\x1D\x01\x00\x08Home pad\x02\x00\x0F\x01\x00\x06height\x01\x00\x030 m");
/// assert_eq!(Tree::from_bytes(&bytes)?, tree);
/// # Ok::<(), leg_sheet::Refusal>(())
/// ```
#[derive(Debug, Clone, PartialEq, Eq, Hash)]
pub enum Tree {
    /// A text; line feeds separate its lines.
    Cell(String),
    /// Children side by side.
    Row(Vec<Tree>),
    /// Children one below the other.
    Column(Vec<Tree>),
}

impl From<&str> for Tree {
    fn from(text: &str) -> Tree {
        Tree::Cell(text.into())
    }
}

impl From<String> for Tree {
    fn from(text: String) -> Tree {
        Tree::Cell(text)
    }
}

impl Tree {
    /// Children side by side.
    #[must_use]
    pub fn row<T: Into<Tree>>(children: impl IntoIterator<Item = T>) -> Tree {
        Tree::Row(children.into_iter().map(Into::into).collect())
    }

    /// Children one below the other.
    #[must_use]
    pub fn column<T: Into<Tree>>(children: impl IntoIterator<Item = T>) -> Tree {
        Tree::Column(children.into_iter().map(Into::into).collect())
    }

    /// A list folded, as [`fold`](crate::fold) says how: the Row of Columns that have these numbers of this Column's children, in order. None where it is no Column, or
    /// the counts are not those of all its children.
    ///
    /// ```
    /// use leg_sheet::Tree;
    ///
    /// let list = Tree::column(["a", "b", "c"]);
    /// let row = Tree::row([Tree::column(["a", "b"]), Tree::column(["c"])]);
    /// assert_eq!(list.folded(&[2, 1]), Some(row));
    /// assert_eq!(list.folded(&[2, 2]), None);
    /// ```
    #[must_use]
    pub fn folded(&self, columns: &[usize]) -> Option<Tree> {
        let Tree::Column(children) = self else {
            return None;
        };
        let mut rest = &children[..];
        let mut row = Vec::new();
        for &count in columns {
            let (column, after) = rest.split_at_checked(count)?;
            row.push(Tree::Column(column.to_vec()));
            rest = after;
        }
        rest.is_empty().then_some(Tree::Row(row))
    }

    /// The tree's bytes, which every call on bytes accepts.
    ///
    /// # Errors
    /// [`BadTree`](Refusal::BadTree), [`BadText`](Refusal::BadText), [`TooManyNodes`](Refusal::TooManyNodes), [`TooDeep`](Refusal::TooDeep), as the proved reader says.
    pub fn to_bytes(&self) -> Result<Vec<u8>, Refusal> {
        let bytes = self.unread();
        calls::read_tree(&bytes)?;
        Ok(bytes)
    }

    /// The tree's bytes, which no call has read.
    pub(crate) fn unread(&self) -> Vec<u8> {
        let mut bytes = Vec::new();
        self.put(&mut bytes);
        bytes
    }

    /// The tree of bytes that the proved reader accepts.
    ///
    /// # Errors
    /// [`BadTree`](Refusal::BadTree), [`BadText`](Refusal::BadText), [`TooManyNodes`](Refusal::TooManyNodes), [`TooDeep`](Refusal::TooDeep).
    pub fn from_bytes(bytes: &[u8]) -> Result<Tree, Refusal> {
        calls::read_tree(bytes)?;
        element(&mut &bytes[..])
    }

    fn put(&self, bytes: &mut Vec<u8>) {
        let list = |bytes: &mut Vec<u8>, children: &[Tree]| {
            children.iter().for_each(|child| child.put(bytes));
        };
        match self {
            Tree::Cell(text) => put(bytes, 1, |bytes| bytes.extend(text.bytes())),
            Tree::Row(children) => put(bytes, 2, |bytes| list(bytes, children)),
            Tree::Column(children) => put(bytes, 3, |bytes| list(bytes, children)),
        }
    }
}

/// Puts an element behind the bytes, as far as they are not too many for a tree yet. Too many are refused for that alone, so that it does not matter then
/// which length is where.
pub(crate) fn put(bytes: &mut Vec<u8>, tag: u8, contents: impl FnOnce(&mut Vec<u8>)) {
    if bytes.len() > calls::TREE {
        return;
    }
    let start = bytes.len() + 3;
    bytes.extend([tag, 0, 0]);
    contents(bytes);
    let length = (bytes.len() - start) as u16;
    bytes[start - 2..start].copy_from_slice(&length.to_be_bytes());
}

/// The bytes of a tree with the texts of these Cells blanked, of every Cell where none is named.
///
/// A number past 16 bits is put as the greatest of 16 bits: neither names a Cell.
pub(crate) fn blanked(tree: &[u8], nodes: &[usize]) -> Result<Vec<u8>, Refusal> {
    let number = |&node: &usize| u16::try_from(node).unwrap_or(u16::MAX);
    let nodes: Vec<u16> = nodes.iter().map(number).collect();
    let mut out = vec![0; tree.len()];
    let count = calls::blank(tree, &nodes, &mut out)?;
    out.truncate(count);
    Ok(out)
}

/// Takes this many bytes off the front.
fn take<'a>(bytes: &mut &'a [u8], count: usize) -> Result<&'a [u8], Refusal> {
    let (front, rest) = bytes.split_at_checked(count).ok_or(Refusal::BadTree)?;
    *bytes = rest;
    Ok(front)
}

/// Takes an element off the front. The reader has accepted the bytes, so that nothing is refused here.
fn element(bytes: &mut &[u8]) -> Result<Tree, Refusal> {
    let header = take(bytes, 3)?;
    let length = u16::from_be_bytes([header[1], header[2]]);
    let contents = take(bytes, length.into())?;
    match header[0] {
        1 => String::from_utf8(contents.to_vec())
            .map(Tree::Cell)
            .map_err(|_| Refusal::BadText),
        2 => sequence(contents).map(Tree::Row),
        3 => sequence(contents).map(Tree::Column),
        _ => Err(Refusal::BadTree),
    }
}

fn sequence(mut bytes: &[u8]) -> Result<Vec<Tree>, Refusal> {
    let mut children = Vec::new();
    while !bytes.is_empty() {
        children.push(element(&mut bytes)?);
    }
    Ok(children)
}
