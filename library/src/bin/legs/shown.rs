//! A mistake in a text, as it is shown: its place, what is wrong in words, the line, and a caret under the column.

use std::io::{self, Write};

use leg_sheet::{TypedFault, WordFault};

/// The bytes that are shown of a longer line, and how many of them may be before the column. So the line is not broken, and the caret is under its column.
const SHOWN: usize = 72;
const BEFORE: usize = 48;

/// What is wrong with a text, and at which line and column, both counted from 1; 0 where it has no place.
pub struct Mistake {
    pub line: usize,
    pub column: usize,
    pub words: String,
}

impl From<TypedFault> for Mistake {
    fn from(fault: TypedFault) -> Mistake {
        Mistake {
            line: fault.line as usize,
            column: fault.column as usize,
            words: fault.refusal.sentence().into(),
        }
    }
}

impl From<WordFault> for Mistake {
    fn from(fault: WordFault) -> Mistake {
        Mistake {
            line: fault.line,
            column: fault.column,
            words: fault.words,
        }
    }
}

pub fn shown(name: &str, text: &[u8], mistake: &Mistake) -> String {
    let &Mistake {
        line,
        column,
        ref words,
    } = mistake;
    if line == 0 {
        return format!("{name}: {words}");
    }
    let mut lines = text.split(|&byte| byte == b'\n');
    let text = lines.nth(line - 1).unwrap_or_default();
    let text = text.strip_suffix(b"\r").unwrap_or(text);
    let (before, after) = around(text, column.saturating_sub(1));
    let caret = " ".repeat(before.chars().count());
    format!("{name}:{line}:{column}: {words}\n{before}{after}\n{caret}^")
}

/// Prints something on standard error. Where that fails nothing can be reported.
pub fn tell(line: &str) {
    let _ = writeln!(io::stderr(), "{line}");
}

/// What is shown of a line before a column, which counts from 0, and from it on; with two dots where the line goes on.
fn around(text: &[u8], column: usize) -> (String, String) {
    let column = column.min(text.len());
    let is_long = text.len() > SHOWN;
    let start = if is_long {
        column.saturating_sub(BEFORE)
    } else {
        0
    };
    let end = text.len().min(start + SHOWN);
    let dots = |is_cut| if is_cut { ".." } else { "" };
    (
        dots(start > 0).to_string() + &visible(&text[start..column]),
        visible(&text[column..end]) + dots(end < text.len()),
    )
}

/// Bytes made visible: what is allowed in a text and letters as they are, anything else by its name or number in brackets.
fn visible(bytes: &[u8]) -> String {
    let mut text = String::new();
    for chunk in bytes.utf8_chunks() {
        text.extend(chunk.valid().chars().map(character));
        text.extend(chunk.invalid().iter().map(|byte| format!("<{byte:02X}>")));
    }
    text
}

fn character(it: char) -> String {
    match it {
        ' '..='~' => it.into(),
        '\t' => "<tab>".into(),
        _ if it.is_alphanumeric() => it.into(),
        _ if it.is_ascii() => format!("<{:02X}>", u32::from(it)),
        _ => format!("<U+{:04X}>", u32::from(it)),
    }
}

#[cfg(test)]
mod tests {
    use super::*;

    /// What is shown of a list with a fault at a column of its only line.
    fn lines(list: &[u8], column: usize) -> Vec<String> {
        let mistake = Mistake {
            line: 1,
            column,
            words: String::new(),
        };
        let shown = shown("a", list, &mistake);
        shown.lines().skip(1).map(String::from).collect()
    }

    /// The caret is under the byte, whatever is before it.
    #[test]
    fn a_caret_under_each_column() {
        assert_eq!(lines(b"  abc", 3), ["  abc", "  ^"]);
        assert_eq!(lines(b"abc", 4), ["abc", "   ^"]);
        assert_eq!(lines(b"", 1), ["", "^"]);
        assert_eq!(lines(b"a\tb", 2), ["a<tab>b", " ^"]);
        assert_eq!(lines(b"a\tb", 3), ["a<tab>b", "      ^"]);
        assert_eq!(lines("é\u{A0}x".as_bytes(), 3), ["é<U+00A0>x", " ^"]);
        assert_eq!(
            lines("é\u{A0}x".as_bytes(), 5),
            ["é<U+00A0>x", "         ^"]
        );
        assert_eq!(lines(b"a\xE9\x1B[1m", 2), ["a<E9><1B>[1m", " ^"]);
        // Between the two bytes of a letter it is not one any more.
        assert_eq!(lines("é".as_bytes(), 2), ["<C3><A9>", "    ^"]);
    }

    /// A line of 72 bytes is whole; of a longer one a part is shown, around the column.
    #[test]
    fn a_long_line_is_cut() {
        let whole = "x".repeat(72);
        assert_eq!(lines(whole.as_bytes(), 72)[0], whole);
        let long = "x".repeat(40) + &"y".repeat(40);
        let shown = lines(long.as_bytes(), 41);
        assert_eq!(shown, [format!("{}..", &long[..72]), " ".repeat(40) + "^"]);
        let shown = lines(long.as_bytes(), 80);
        let (cut, caret) = (format!("..{}", &long[31..]), " ".repeat(50) + "^");
        assert_eq!(shown, [cut, caret]);
        assert_eq!(shown[0].as_bytes()[shown[1].len() - 1], b'y');
        assert_eq!(lines(long.as_bytes(), 81)[1].len(), 51);
    }
}
