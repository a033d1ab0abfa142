//! Planning trees that are typed: a list in which a line may be a range, as `? 2-6 x 1-3`.

use std::ops::RangeInclusive;

use super::Plan;
use crate::lines::{typed_lines, TypedLine};
use crate::refusal::Refusal;
use crate::tree::Tree;
use crate::typed::TypedFault;

/// What a range begins with. A text that begins so has a quote mark in front.
const FRONT: &[u8] = b"? ";

impl Plan {
    /// The planning tree of a typed list, which may have ranges: `?`, a space, the least and the greatest width, `x`, the least and the greatest count of lines. A number alone means two
    /// that are equal, and without the count it is one line.
    ///
    /// ```
    /// use leg_sheet::{Plan, TypedFault};
    ///
    /// let list = "row\n  Home pad\n  ? 2-6 x 1-3\n  ? 4\n  '? what\n";
    /// let plan = Plan::row(["Home pad".into(), Plan::range(2..=6, 1..=3), Plan::range(4..=4, 1..=1), "? what".into()]);
    /// assert_eq!(Plan::from_typed(list)?, plan);
    /// # Ok::<(), TypedFault>(())
    /// ```
    ///
    /// # Errors
    /// As [`Tree::from_typed`], whose reader takes a range for a text; then [`Refusal::BadRange`] for the first line that begins with `? ` and is no range.
    pub fn from_typed(text: impl AsRef<[u8]>) -> Result<Plan, TypedFault> {
        let list = text.as_ref();
        let tree = Tree::from_typed(list)?;
        let mut lines = typed_lines(list).filter(TypedLine::is_node);
        planned(&tree, &mut lines)
    }
}

/// The plan of a tree, whose nodes have these lines.
fn planned<'a>(
    tree: &Tree,
    lines: &mut impl Iterator<Item = TypedLine<'a>>,
) -> Result<Plan, TypedFault> {
    let line = lines.next().expect("a line for each node");
    let mut all = |children: &[Tree]| -> Result<Vec<Plan>, TypedFault> {
        children.iter().map(|child| planned(child, lines)).collect()
    };
    match tree {
        Tree::Row(children) => Ok(Plan::Row(all(children)?)),
        Tree::Column(children) => Ok(Plan::Column(all(children)?)),
        Tree::Cell(text) => match line.typed.strip_prefix(FRONT) {
            None => Ok(Plan::Cell(text.clone())),
            Some(_) => range(text).ok_or(TypedFault {
                refusal: Refusal::BadRange,
                line: line.number as u32,
                column: line.spaces as u32 + 1,
            }),
        },
    }
}

/// The range of a text, where it is one that the proved reader accepts.
fn range(text: &str) -> Option<Plan> {
    let text = text.strip_prefix('?')?;
    let (width, lines) = text.split_once('x').unwrap_or((text, "1"));
    let range = Plan::range(ends(width)?, ends(lines)?);
    range.to_bytes().is_ok().then_some(range)
}

/// The least and the greatest.
fn ends(text: &str) -> Option<RangeInclusive<u8>> {
    let (least, greatest) = text.split_once('-').unwrap_or((text, text));
    Some(number(least)?..=number(greatest)?)
}

fn number(text: &str) -> Option<u8> {
    let text = text.trim_matches(' ');
    let is_number = text.bytes().all(|byte| byte.is_ascii_digit());
    text.parse().ok().filter(|_| is_number)
}
