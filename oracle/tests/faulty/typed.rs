//! Typed lists read line by line, with one step gone wrong: faults `FIRST` to `LAST`, each named where it is made. It writes the tree's bytes as it goes, and shares no code with
//! `typing`: without a fault it is a second reading of the form.

use oracle::calls::Typed;
use oracle::form::encode_element;
use oracle::judge::{DEPTH, NODES, TREE_BYTES};
use oracle::typing::LIST_BYTES;

use super::blanks;

pub const FIRST: u8 = blanks::LAST + 1;
pub const LAST: u8 = 238;

/// A line without its end.
fn without_end(fault: u8, line: &[u8]) -> &[u8] {
    match line {
        // The carriage return kept; all of them taken off; spaces at the end taken off.
        _ if fault == 175 => line,
        [rest @ .., b'\r'] if fault == 176 => without_end(fault, rest),
        [rest @ .., b' '] if fault == 177 => without_end(fault, rest),
        [rest @ .., b'\r'] => rest,
        _ => line,
    }
}

/// Whether a line is skipped that has this behind this many spaces.
fn is_skipped(fault: u8, spaces: usize, typed: &[u8]) -> bool {
    match typed {
        // A blank line as an empty Cell where it has spaces; indented comments as texts; comments with a forbidden byte as texts; the mark alone skipped.
        [] => fault != 178 || spaces == 0,
        [b'#', ..] if fault == 179 => spaces == 0,
        [b'#', rest @ ..] if fault == 180 => rest.iter().all(|&byte| may_stand(fault, byte)),
        [b'#', ..] => true,
        _ => fault == 181 && typed == b"'",
    }
}

/// Whether a byte is allowed in a text.
fn may_stand(fault: u8, byte: u8) -> bool {
    match byte {
        // A tab taken; all control bytes; hex 7F; accents; the greatest refused.
        b'\t' if fault == 182 => true,
        0x00..=0x1F => fault == 183,
        0x7F => fault == 184,
        0x80.. => fault == 185,
        b'~' => fault != 186,
        _ => true,
    }
}

/// What is wrong with the backslash at this place, with this byte behind it, and the column where it is reported.
fn bad_escape(fault: u8, at: usize, next: Option<u8>) -> Option<(u8, usize)> {
    match next {
        Some(b'n' | b'\\') => None,
        // An escape passed through; a backslash at the line's end passed through; reported at the backslash; 31 where no text may have that byte.
        Some(_) if fault == 187 => None,
        None if fault == 188 => None,
        _ if fault == 189 => Some((32, at + 1)),
        Some(byte) if fault == 190 && !may_stand(fault, byte) => Some((31, at + 2)),
        _ => Some((32, at + 2)),
    }
}

/// The first bad byte, and its column.
fn bad_byte(fault: u8, line: &[u8]) -> Option<(u8, usize)> {
    let mut at = 0;
    let mut escape = None;
    while let Some(&byte) = line.get(at) {
        if !may_stand(fault, byte) {
            return Some((31, at + 1));
        }
        if byte == b'\\' {
            let bad = bad_escape(fault, at, line.get(at + 1).copied());
            // 31 before 32 wherever they are.
            if bad.is_some() && fault != 191 {
                return bad;
            }
            escape = escape.or(bad);
            at += 1;
        }
        at += 1;
    }
    escape
}

/// The tag and the text of a line.
fn named(fault: u8, typed: &[u8]) -> (u8, Vec<u8>) {
    let word = match fault {
        // Words in capitals; with a space behind; behind a mark; the beginning of a text.
        192 => typed.to_ascii_lowercase(),
        193 => typed.trim_ascii_end().to_vec(),
        194 => typed.strip_prefix(b"'").unwrap_or(typed).to_vec(),
        195 if typed.starts_with(b"row") => b"row".to_vec(),
        _ => typed.to_vec(),
    };
    match &word[..] {
        b"row" => (2, Vec::new()),
        b"column" => (3, Vec::new()),
        _ => (1, text(fault, typed)),
    }
}

/// The text of a Cell.
fn text(fault: u8, typed: &[u8]) -> Vec<u8> {
    let typed = match typed {
        // The mark kept; two taken off; one at the end, too; all behind a `#` left out.
        _ if fault == 196 => typed,
        [b'\'', b'\'', rest @ ..] if fault == 197 => rest,
        [b'\'', rest @ .., b'\''] if fault == 198 => rest,
        _ if fault == 199 => typed.split(|&byte| byte == b'#').next().unwrap_or(typed),
        [b'\'', rest @ ..] => rest,
        _ => typed,
    };
    let mut text = Vec::new();
    let mut at = 0;
    while at < typed.len() {
        let (taken, byte) = match &typed[at..] {
            // A line feed, or a backslash, left as it is typed.
            [b'\\', b'n', ..] if fault != 200 => (2, 0x0A),
            [b'\\', b'\\', ..] if fault != 201 => (2, b'\\'),
            rest => (1, rest[0]),
        };
        text.push(byte);
        at += taken;
    }
    text
}

/// A limit, one more or one less of it where a fault is about it.
fn limit(fault: u8, limit: usize, [more, less]: [u8; 2]) -> usize {
    limit + usize::from(fault == more) - usize::from(fault == less)
}

/// The tree so far, and where the last node and those above it start.
#[derive(Default)]
struct Reading {
    fault: u8,
    tree: Vec<u8>,
    starts: Vec<usize>,
    nodes: usize,
}

impl Reading {
    fn is_below_cell(&self) -> bool {
        self.starts
            .last()
            .is_some_and(|&start| self.tree[start] == 1)
    }

    /// The level as it is taken, where it is too deep.
    fn taken(&self, level: usize) -> usize {
        let most = self.starts.len() - usize::from(self.is_below_cell());
        match self.fault {
            // A child below a Cell beside it; an indented root; a jump of two levels as one.
            202 if self.is_below_cell() => level.min(most),
            203 if self.starts.is_empty() => 0,
            204 if !self.is_below_cell() && most > 0 => level.min(most),
            _ => level,
        }
    }

    /// A node behind those so far.
    fn put(&mut self, level: usize, tag: u8, text: &[u8]) {
        let element = encode_element(tag, text);
        self.starts.truncate(level);
        for &start in &self.starts {
            let length = &mut self.tree[start + 1..start + 3];
            let longer = u16::from_be_bytes([length[0], length[1]]) + element.len() as u16;
            length.copy_from_slice(&longer.to_be_bytes());
        }
        self.starts.push(self.tree.len());
        self.tree.extend(element);
        self.nodes += 1;
    }

    /// A node where it is allowed, or 34 to 38.
    fn add(&mut self, level: usize, tag: u8, text: &[u8]) -> Result<(), u8> {
        let fault = self.fault;
        let level = self.taken(level);
        if level == 0 && self.nodes > 0 {
            match fault {
                // The second root dropped; taken instead of the first.
                205 => return Ok(()),
                206 => (self.nodes, self.tree, self.starts) = (0, Vec::new(), Vec::new()),
                _ => {}
            }
        }
        let most = self.starts.len() - usize::from(self.is_below_cell());
        let bytes = self.tree.len() + 3 + text.len();
        let mut faults = [
            (34, level == 0 && self.nodes > 0),
            (35, level > most),
            (36, level >= limit(fault, DEPTH, [207, 208])),
            (37, self.nodes >= limit(fault, NODES, [209, 210])),
            (38, bytes > limit(fault, TREE_BYTES, [211, 212])),
        ];
        // 36 before 35; 37 before 36; 38 before 37; 34 last.
        match fault {
            213..=215 => faults.swap(usize::from(fault) - 212, usize::from(fault) - 211),
            216 => faults.rotate_left(1),
            _ => {}
        }
        if let Some((number, _)) = faults.into_iter().find(|(_, is_so)| *is_so) {
            return Err(number);
        }
        self.put(level, tag, text);
        Ok(())
    }

    /// A line, or its number and column.
    fn line(&mut self, line: &[u8]) -> Result<(), (u8, usize)> {
        let fault = self.fault;
        let spaces = line.iter().position(|&byte| byte != b' ');
        let spaces = spaces.unwrap_or(line.len());
        let typed = &line[spaces..];
        if is_skipped(fault, spaces, typed) {
            return Ok(());
        }
        // Reported at the line's first byte; 33 before 31.
        let column = if fault == 217 { 1 } else { spaces + 1 };
        if fault == 218 && spaces % 2 == 1 {
            return Err((33, column));
        }
        if let Some(bad) = bad_byte(fault, line) {
            return Err(bad);
        }
        let level = match (fault, spaces % 2) {
            // A level of one space; half a level left out; or taken for a whole one.
            (219, _) => spaces,
            (220, _) => spaces / 2,
            (221, _) => spaces.div_ceil(2),
            (_, 0) => spaces / 2,
            _ => return Err((33, column)),
        };
        let (tag, text) = named(fault, typed);
        let added = self.add(level, tag, &text);
        added.map_err(|number| (number, column))
    }

    /// All lines; or the number, the line and the column of what is wrong.
    fn lines(&mut self, list: &[u8]) -> Result<(), (u8, usize, usize)> {
        let fault = self.fault;
        let mut lines: Vec<&[u8]> = list.split(|&byte| byte == 0x0A).collect();
        // A last line without a line feed left out; the last of the faults reported.
        if fault == 222 && lines.last() != Some(&&b""[..]) {
            lines.pop();
        }
        let mut found = Ok(());
        for (at, line) in lines.iter().enumerate() {
            let read = self.line(without_end(fault, line));
            let read = read.map_err(|(number, column)| (number, at + 1, column));
            found = if read.is_err() { read } else { found };
            if found.is_err() && fault != 223 {
                return found;
            }
        }
        found?;
        if self.nodes > 0 {
            return Ok(());
        }
        // No root on the first line; on the last line that has bytes.
        let last = match fault {
            224 => 1,
            225 if lines.last() == Some(&&b""[..]) => lines.len().max(2) - 1,
            _ => lines.len(),
        };
        Err((39, last, 1))
    }
}

/// The number with the place as it is reported.
fn told(fault: u8, (number, line, column): (u8, usize, usize)) -> Typed {
    let (line, column) = match fault {
        // Columns, or lines, from 0; of 16 bits; no place of 39.
        226 => (line, column - 1),
        227 => (line - 1, column),
        228 => (line, column as u16 as usize),
        229 => (line as u16 as usize, column),
        230 if number == 39 => (0, 0),
        _ => (line, column),
    };
    Typed {
        number,
        count: 0,
        line,
        column,
    }
}

/// What is answered instead of a tree.
fn short(fault: u8, number: u8) -> Typed {
    // 8 and 30 with a place.
    let place = usize::from(fault == 231);
    Typed {
        number,
        count: 0,
        line: place,
        column: place,
    }
}

pub fn read(fault: u8, list: &[u8], output: &mut [u8]) -> Typed {
    // A byte order mark taken off; 8 before all others.
    let list = match list {
        [0xEF, 0xBB, 0xBF, rest @ ..] if fault == 232 => rest,
        _ => list,
    };
    if fault == 233 && output.len() < 3 {
        return short(fault, 8);
    }
    if list.len() > limit(fault, LIST_BYTES, [234, 235]) {
        return short(fault, 30);
    }
    let mut reading = Reading {
        fault,
        ..Reading::default()
    };
    let read = reading.lines(list);
    let tree = reading.tree;
    let beginning = tree.len().min(output.len());
    // What was read written beside a fault; and beside 8.
    if (fault == 236 && read.is_err()) || (fault == 237 && output.len() < tree.len()) {
        output[..beginning].copy_from_slice(&tree[..beginning]);
    }
    if let Err(found) = read {
        return told(fault, found);
    }
    let Some(written) = output.get_mut(..tree.len()) else {
        return short(fault, 8);
    };
    written.copy_from_slice(&tree);
    // The bytes past the tree cleared.
    if fault == 238 {
        output[tree.len()..].fill(0);
    }
    Typed {
        count: tree.len(),
        ..Typed::default()
    }
}
