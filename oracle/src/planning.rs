//! Document 02, 10: a sheet planned before its texts are known. The reader of planning trees, with a walk of its own over the bytes; the ends of W and H; and the
//! choices of texts. It follows the document's sentences and shares no code with the port.

use crate::form::{Ends, Plan, Range, Settings, Tree};
use crate::judge::{self, DEPTH, NODES, TREE_BYTES};
use crate::paper;

/// The elements seen so far.
struct Reader {
    nodes: usize,
}

impl Reader {
    /// The element at the front of what is left of its container; the rest is left then.
    fn element(&mut self, bytes: &mut &[u8], depth: usize) -> Result<Plan, u8> {
        self.nodes += 1;
        let [tag, high, low, rest @ ..] = *bytes else {
            return Err(2);
        };
        let length = u16::from_be_bytes([*high, *low]).into();
        let (contents, rest) = rest.split_at_checked(length).ok_or(2)?;
        // 'Only planning calls take tag 4; elsewhere it is still 2, as is a wrong length.'
        let is_known = match tag {
            1..=3 => true,
            4 => length == 4,
            _ => false,
        };
        // 'The root ends where the input ends.'
        let is_root = self.nodes == 1;
        if !is_known || (is_root && !rest.is_empty()) {
            return Err(2);
        }
        if depth > DEPTH {
            return Err(5);
        }
        if self.nodes > NODES {
            return Err(4);
        }
        *bytes = rest;
        match (tag, contents) {
            (4, &[a, b, c, d]) => range([a, b], [c, d]).map(Plan::Range),
            (2, _) => self.sequence(contents, depth + 1).map(Plan::Row),
            (3, _) => self.sequence(contents, depth + 1).map(Plan::Column),
            _ => text(contents).map(Plan::Cell),
        }
    }

    fn sequence(&mut self, mut bytes: &[u8], depth: usize) -> Result<Vec<Plan>, u8> {
        let mut children = Vec::new();
        while !bytes.is_empty() {
            children.push(self.element(&mut bytes, depth)?);
        }
        Ok(children)
    }
}

/// 'Text bytes are hex 20 to 7E and 0A', or 3.
fn text(bytes: &[u8]) -> Result<Vec<u8>, u8> {
    let is_good = |byte: &u8| matches!(byte, 0x20..=0x7E | 0x0A);
    bytes.iter().all(is_good).then(|| bytes.to_vec()).ok_or(3)
}

/// '17 for a least above its greatest or a least line count of 0, in the element's turn after depth and count.'
fn range(width: [u8; 2], lines: [u8; 2]) -> Result<Range, u8> {
    let is_bad = width[0] > width[1] || lines[0] > lines[1] || lines[0] == 0;
    (!is_bad).then_some(Range { width, lines }).ok_or(17)
}

/// The planning tree, or 2 to 5 or 17.
pub fn read_plan(mut bytes: &[u8]) -> Result<Plan, u8> {
    if bytes.len() > TREE_BYTES {
        return Err(2);
    }
    Reader { nodes: 0 }.element(&mut bytes, 1)
}

/// The settings and the planning tree, or 1 to 5 or 17. There is no 6: 'the limits on W, H .. put aside'.
pub fn read(settings: &[u8], tree: &[u8]) -> Result<(Settings, Plan), u8> {
    Ok((judge::read_settings(settings)?, read_plan(tree)?))
}

/// The natural width and height of a node, every range being at its least end (0) or at its greatest (1).
fn natural(settings: &Settings, plan: &Plan, end: usize) -> (usize, usize) {
    let [left, right, top, bottom] = settings.padding.map(usize::from);
    let padded = |width: usize, lines: usize| (left + width + right, top + lines + bottom);
    let (children, is_row) = match plan {
        Plan::Cell(text) => {
            let lines: Vec<&[u8]> = text.split(|&byte| byte == 0x0A).collect();
            let longest = lines.iter().map(|line| line.len()).max();
            return padded(longest.unwrap_or(0), lines.len());
        }
        Plan::Range(Range { width, lines }) => {
            return padded(width[end].into(), lines[end].into());
        }
        Plan::Row(children) => (children, true),
        Plan::Column(children) => (children, false),
    };
    if children.is_empty() {
        return padded(0, 1);
    }
    let sizes = children.iter().map(|child| natural(settings, child, end));
    let (widths, heights): (Vec<usize>, Vec<usize>) = sizes.unzip();
    let separators = (children.len() - 1) * paper::separator(settings);
    let sum = |list: &[usize]| list.iter().sum::<usize>() + separators;
    let most = |list: &[usize]| list.iter().copied().max().unwrap_or(0);
    if is_row {
        (sum(&widths), most(&heights))
    } else {
        (most(&widths), sum(&heights))
    }
}

/// 'The least and greatest W and H': a wider text, or one of more lines, makes no node smaller, so that they are those of all texts at their least, and at their
/// greatest. The sheet's edges and the margin are part of them.
pub fn ends(settings: &Settings, plan: &Plan) -> Ends {
    let [left, right, top, bottom] = settings.margin.sizes.map(usize::from);
    let edges = 2 * paper::separator(settings);
    let [least, greatest] = [0, 1].map(|end| natural(settings, plan, end));
    Ends {
        width: [least.0, greatest.0].map(|width| left + width + edges + right),
        height: [least.1, greatest.1].map(|height| top + height + edges + bottom),
    }
}

/// A width and a line count for each range.
pub type Choice = Vec<(usize, usize)>;

/// The most choices that are all tried.
const CHOICES: usize = 1000;

/// Every choice within these ranges. Where there are too many, the four of all widths at one end and all line counts at one end.
pub fn choices(ranges: &[Range]) -> Vec<Choice> {
    let steps = |[least, greatest]: [u8; 2]| usize::from(greatest - least) + 1;
    let sizes = |range: &Range| steps(range.width).saturating_mul(steps(range.lines));
    let count = ranges.iter().map(sizes).fold(1, usize::saturating_mul);
    if count > CHOICES {
        let ends = [(0, 0), (0, 1), (1, 0), (1, 1)];
        let at = |(w, l): (usize, usize)| {
            let end = |range: &Range| (range.width[w].into(), range.lines[l].into());
            ranges.iter().map(end).collect()
        };
        return ends.map(at).to_vec();
    }
    let nth = |number: usize| {
        let mut rest = number;
        let mut next = |ends: [u8; 2]| {
            let step = rest % steps(ends);
            rest /= steps(ends);
            usize::from(ends[0]) + step
        };
        let one = |range: &Range| (next(range.width), next(range.lines));
        ranges.iter().map(one).collect()
    };
    (0..count).map(nth).collect()
}

/// A text of this width and this many lines: the one that `at` chooses has the width; the others have a letter, or none.
pub fn text_of(width: usize, lines: usize, at: usize) -> Vec<u8> {
    let line = |n: usize| vec![b'x'; if n == at % lines { width } else { width.min(1) }];
    (0..lines).map(line).collect::<Vec<_>>().join(&0x0A)
}

/// The tree with the texts of a choice.
pub fn chosen(plan: &Plan, choice: &Choice) -> Tree {
    let numbered = choice.iter().enumerate();
    plan.with(&mut numbered.map(|(at, &(width, lines))| text_of(width, lines, at + width)))
}
