//! Lines that are too deep, or at the left edge.

use leg_sheet::{typed_lines, LineKind, TypedLine};

use crate::shown::Mistake;
use crate::texts::beginning;

/// A second line at the left edge.
pub fn second_root(list: &[u8], mistake: Mistake) -> Mistake {
    let root = typed_lines(list).find(TypedLine::is_node);
    let root = root.map_or(1, |line| line.number);
    let words = format!(
        "only one line can be at the left edge, and line {root} is: put row or column above it, and two more spaces in front of every line"
    );
    Mistake { words, ..mistake }
}

/// A line that is too deep: by the node in the line before it, one level below a row or column is the deepest, and below a text there is none.
pub fn no_parent(list: &[u8], mistake: Mistake) -> Mistake {
    let mut nodes = typed_lines(list).filter(TypedLine::is_node);
    let is_before = |line: &TypedLine| line.number < mistake.line;
    let Some(before) = nodes.by_ref().take_while(is_before).last() else {
        let words = "the first line may not be indented".into();
        return Mistake { words, ..mistake };
    };
    let levels = ((mistake.column - 1) / 2).saturating_sub(before.spaces / 2);
    match before.kind() {
        LineKind::Text => inside_text(before, levels, mistake),
        _ => {
            let (word, number) = (String::from_utf8_lossy(before.typed), before.number);
            let words = format!(
                "{} levels deeper than {word} in line {number}: two spaces are one level",
                counted(levels)
            );
            Mistake { words, ..mistake }
        }
    }
}

/// A line this many levels inside a text, which may have been meant for a row or column.
fn inside_text(text: TypedLine, levels: usize, mistake: Mistake) -> Mistake {
    let (shown, number, line) = (
        beginning(&String::from_utf8_lossy(text.typed)),
        text.number,
        mistake.line,
    );
    if let Some(word) = meant(text.typed) {
        return Mistake {
            line: number,
            column: text.spaces + 1,
            words: format!(
                "'{shown}' is a text, and line {line} is inside it. Did you mean the word {word}?"
            ),
        };
    }
    let spaces = counted(2 * levels);
    let words = format!(
        "line {line} is inside the text '{shown}' (line {number}): only a row or column has lines inside; {spaces} spaces fewer?"
    );
    Mistake { words, ..mistake }
}

/// The word that a text was meant for.
fn meant(typed: &[u8]) -> Option<&'static str> {
    let text = String::from_utf8_lossy(typed).to_ascii_lowercase();
    let around = |it: char| it.is_whitespace() || it.is_ascii_punctuation();
    match text.trim_matches(around) {
        "row" | "rows" => Some("row"),
        "column" | "columns" | "col" | "cols" => Some("column"),
        _ => None,
    }
}

/// A number in words, as far as there are.
fn counted(number: usize) -> String {
    let words = ["no", "one", "two", "three", "four", "five", "six"];
    words
        .get(number)
        .map_or(number.to_string(), |word| String::from(*word))
}
