//! All mistakes of a list that can be reported: what is not allowed there is replaced by something that is, and the proved reader is called again.

use leg_sheet::{calls, Refusal, TypedFault};

use super::encoding::{is_marked, BYTE_ORDER_MARK};
use super::{characters, first, from_place};
use crate::shown::Mistake;

/// The most mistakes that are reported.
const MOST: usize = 100;

/// The mistakes of a list by their places, and whether nothing was left out behind the last of them.
pub fn all(list: &[u8]) -> (Vec<Mistake>, bool) {
    let (mut mistakes, is_all) = found(list);
    mistakes.sort_by_key(|mistake| (mistake.line, mistake.column));
    (mistakes, is_all)
}

/// The mistakes as the reader finds them.
fn found(list: &[u8]) -> (Vec<Mistake>, bool) {
    let mut lines: Vec<Line> = list.split(|&byte| byte == b'\n').map(Line::new).collect();
    let mut mistakes = Vec::new();
    let mut tree = vec![0; calls::TREE];
    while let Err(fault) = calls::read_typed(&joined(&lines, |line| &line.asked), &mut tree) {
        let kept = joined(&lines, |line| &line.kept);
        let mut mistake = first(&kept, fault);
        let is_whole = mistake.line == 0;
        if !is_whole {
            let grown = lines[mistake.line - 1].grown;
            mistake.column = mistake.column.saturating_add_signed(-grown);
        }
        mistakes.push(mistake);
        if is_whole || mistakes.len() == MOST || !mend(&mut lines, &kept, fault) {
            return (mistakes, false);
        }
    }
    (mistakes, true)
}

/// A line of a list.
struct Line {
    /// As the reader gets it.
    asked: Vec<u8>,
    /// As it was, but for its front: a tab there is two spaces, and a byte order mark is nothing.
    kept: Vec<u8>,
    /// How many bytes more the front has.
    grown: isize,
}

impl Line {
    fn new(line: &[u8]) -> Line {
        Line {
            asked: line.to_vec(),
            kept: line.to_vec(),
            grown: 0,
        }
    }

    /// Puts other bytes for this many in front.
    fn put_front(&mut self, count: usize, front: &[u8]) {
        self.grown += front.len() as isize - count as isize;
        for line in [&mut self.asked, &mut self.kept] {
            line.splice(..count, front.iter().copied());
        }
    }

    /// Puts two spaces for each tab in front.
    fn indent(&mut self) {
        let front = self.kept.iter().take_while(|byte| b" \t".contains(byte));
        let front: Vec<u8> = front.copied().collect();
        let spaces = |&byte: &u8| if byte == b'\t' { &b"  "[..] } else { b" " };
        let indented: Vec<u8> = front.iter().flat_map(spaces).copied().collect();
        self.put_front(front.len(), &indented);
    }
}

fn joined(lines: &[Line], of: impl Fn(&Line) -> &[u8]) -> Vec<u8> {
    let lines: Vec<&[u8]> = lines.iter().map(of).collect();
    lines.join(&b'\n')
}

/// Whether what is wrong at a place could be mended. Behind the front a character that is not allowed is replaced by `?`, and so is a backslash.
fn mend(lines: &mut [Line], kept: &[u8], fault: TypedFault) -> bool {
    let (line, column) = (fault.line as usize, fault.column as usize);
    let rest = from_place(kept, line, column);
    let line = &mut lines[line - 1];
    let at = column - 1;
    match fault.refusal {
        Refusal::BadCharacter if is_marked(kept) => line.put_front(BYTE_ORDER_MARK.len(), b""),
        Refusal::BadCharacter if line.kept[..=at].iter().all(|byte| b" \t".contains(byte)) => {
            line.indent();
        }
        Refusal::BadCharacter => line.asked[at..at + characters::length(rest)].fill(b'?'),
        Refusal::BadEscape => line.asked[at - 1] = b'?',
        _ => return false,
    }
    true
}
