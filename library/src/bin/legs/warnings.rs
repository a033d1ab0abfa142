//! What a typed list may not have been meant to say: a comment that looks like a text, and a quote mark that is taken off a text which needs none.

use leg_sheet::{typed_lines, LineKind, Tree, TypedLine};

use crate::texts::beginning;

/// The most warnings that are printed.
const MOST: usize = 10;

/// The warnings about an accepted list, a line each.
pub fn warnings(name: &str, list: &[u8]) -> Vec<String> {
    let all: Vec<(TypedLine, String)> = typed_lines(list)
        .filter_map(|line| Some((line, warning(line)?)))
        .collect();
    let shown = |(line, words): &(TypedLine, String)| {
        let (number, column) = (line.number, line.spaces + 1);
        format!("{name}:{number}:{column}: warning: {words}")
    };
    let mut lines: Vec<String> = all.iter().take(MOST).map(shown).collect();
    if all.len() > MOST {
        let more = all.len() - MOST;
        lines.push(format!("{name}: warning: and {more} more"));
    }
    lines
}

fn warning(line: TypedLine) -> Option<String> {
    match (line.kind(), line.typed) {
        (LineKind::Comment, [_, next, ..]) if next.is_ascii_alphanumeric() => {
            let text = beginning(&String::from_utf8_lossy(line.typed));
            let behind = &text[1..];
            Some(format!(
                "a comment, which is not in the sheet: type '{text} for the text, or # {behind} for a comment"
            ))
        }
        (LineKind::Text, [b'\'', rest @ ..]) if is_plain(rest) => {
            let text = beginning(&String::from_utf8_lossy(rest));
            Some(format!(
                "the quote mark in front is not in the sheet: type ''{text} if it should be, or {text} if not"
            ))
        }
        _ => None,
    }
}

/// Whether a text is the same without the quote mark in front, in a planning list, too.
fn is_plain(typed: &[u8]) -> bool {
    let quoted = Tree::from_typed([b"'", typed].concat());
    !typed.starts_with(b"? ") && Tree::from_typed(typed) == quoted
}
