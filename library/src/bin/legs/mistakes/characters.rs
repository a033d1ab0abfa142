//! Characters that cannot be printed: what they are called, and what to write instead.

use super::from_place;
use crate::shown::Mistake;

/// A byte that is no part of a text, at a place that the reader found.
pub fn mistake(list: &[u8], mistake: Mistake) -> Mistake {
    let rest = from_place(list, mistake.line, mistake.column);
    let before = from_place(list, mistake.line, 1);
    let before = &before[..before.len() - rest.len()];
    let words = match first_character(rest) {
        Ok('\t') if before.iter().all(|byte| b" \t".contains(byte)) => {
            "a tab (U+0009) is not allowed here: type two spaces for a level".into()
        }
        Ok('\t') => "a tab (U+0009) cannot be printed: type spaces".into(),
        Ok('\r') => "a carriage return (U+000D) is not allowed inside a line: save the list with line feeds at the ends of its lines".into(),
        Ok(it) => of_character(it),
        Err(byte) => of_byte(byte),
    };
    Mistake { words, ..mistake }
}

/// How many bytes the character at the front has; one where it is none.
pub fn length(rest: &[u8]) -> usize {
    first_character(rest).map_or(1, char::len_utf8)
}

/// The character at the front, or the byte there where the bytes are no UTF-8.
fn first_character(rest: &[u8]) -> Result<char, u8> {
    let chunk = rest.utf8_chunks().next();
    let first = chunk.and_then(|chunk| chunk.valid().chars().next());
    first.ok_or_else(|| rest.first().copied().unwrap_or_default())
}

fn of_character(it: char) -> String {
    let number = format!("U+{:04X}", u32::from(it));
    let (name, instead) = named(it).unwrap_or(("", letters(it).unwrap_or_default()));
    let who = match name {
        "" if it.is_control() => format!("a control character ({number})"),
        "" => format!("{it} ({number})"),
        _ if is_visible(it) => format!("{it} ({name}, {number})"),
        _ => format!("{name} ({number})"),
    };
    let instead = match instead {
        "" => String::new(),
        "nothing" => ": take it out".into(),
        _ => format!(": write {instead}"),
    };
    format!("{who} cannot be printed, only ASCII can{instead}")
}

/// A byte of a file that is no UTF-8. In most other files it is what Latin-1 has.
fn of_byte(byte: u8) -> String {
    let it = char::from(byte);
    let instead = letters(it).map_or(String::new(), |letters| {
        format!("; if it is {it}: write {letters}")
    });
    format!(
        "the byte {byte:02X} cannot be printed, only ASCII can, and the file is no UTF-8{instead}"
    )
}

/// Whether a character that has a name can be seen.
fn is_visible(it: char) -> bool {
    !it.is_whitespace() && !"\u{AD}\u{200B}\u{2060}\u{FEFF}".contains(it) && !is_accent(it)
}

fn is_accent(it: char) -> bool {
    ('\u{300}'..='\u{36F}').contains(&it)
}

/// The name of a sign, and what to write instead.
fn named(it: char) -> Option<(&'static str, &'static str)> {
    if is_accent(it) {
        return Some(("an accent of the letter before", "nothing"));
    }
    let signs = SIGNS.iter().find(|(sign, ..)| *sign == it);
    signs.map(|&(_, name, instead)| (name, instead))
}

/// The letters of ASCII that are nearest to a letter.
fn letters(it: char) -> Option<&'static str> {
    let near = LETTERS.iter().find(|(_, letters)| letters.contains(it));
    near.map(|&(instead, _)| instead)
}

const SIGNS: &[(char, &str, &str)] = &[
    ('\u{A0}', "a no-break space", "a space"),
    ('\u{2009}', "a thin space", "a space"),
    ('\u{202F}', "a narrow no-break space", "a space"),
    ('\u{3000}', "a wide space", "a space"),
    ('\u{AD}', "a soft hyphen", "nothing"),
    ('\u{200B}', "a zero-width space", "nothing"),
    ('\u{2060}', "a word joiner", "nothing"),
    ('\u{FEFF}', "a byte order mark", "nothing"),
    ('°', "degree sign", "deg"),
    ('º', "ordinal sign", "o"),
    ('ª', "ordinal sign", "a"),
    ('′', "prime", "'"),
    ('″', "double prime", "\""),
    ('‐', "hyphen", "-"),
    ('‑', "non-breaking hyphen", "-"),
    ('–', "en dash", "-"),
    ('—', "em dash", "-"),
    ('−', "minus sign", "-"),
    ('‘', "quotation mark", "'"),
    ('’', "apostrophe", "'"),
    ('‚', "quotation mark", "'"),
    ('“', "quotation mark", "\""),
    ('”', "quotation mark", "\""),
    ('„', "quotation mark", "\""),
    ('«', "quotation mark", "\""),
    ('»', "quotation mark", "\""),
    ('…', "ellipsis", "..."),
    ('•', "bullet", "-"),
    ('·', "middle dot", "."),
    ('×', "multiplication sign", "x"),
    ('÷', "division sign", "/"),
    ('±', "plus-minus sign", "+/-"),
    ('²', "superscript two", "2"),
    ('³', "superscript three", "3"),
    ('¼', "one quarter", "1/4"),
    ('½', "one half", "1/2"),
    ('¾', "three quarters", "3/4"),
    ('µ', "micro sign", "u"),
    ('Ω', "ohm sign", "ohm"),
    ('€', "euro sign", "EUR"),
    ('£', "pound sign", "GBP"),
    ('←', "arrow", "<-"),
    ('→', "arrow", "->"),
    ('≤', "less or equal", "<="),
    ('≥', "greater or equal", ">="),
    ('≈', "almost equal", "~"),
];

const LETTERS: &[(&str, &str)] = &[
    ("A", "ÀÁÂÃÄÅĀĂĄǍ"),
    ("AE", "Æ"),
    ("C", "ÇĆĈĊČ"),
    ("D", "ÐĎĐ"),
    ("E", "ÈÉÊËĒĔĖĘĚ"),
    ("G", "ĜĞĠĢ"),
    ("H", "ĤĦ"),
    ("I", "ÌÍÎÏĨĪĬĮİ"),
    ("J", "Ĵ"),
    ("K", "Ķ"),
    ("L", "ĹĻĽĿŁ"),
    ("N", "ÑŃŅŇŊ"),
    ("O", "ÒÓÔÕÖØŌŎŐ"),
    ("OE", "Œ"),
    ("R", "ŔŖŘ"),
    ("S", "ŚŜŞŠȘ"),
    ("T", "ŢŤŦȚ"),
    ("Th", "Þ"),
    ("U", "ÙÚÛÜŨŪŬŮŰŲ"),
    ("W", "Ŵ"),
    ("Y", "ÝŶŸ"),
    ("Z", "ŹŻŽ"),
    ("a", "àáâãäåāăąǎ"),
    ("ae", "æ"),
    ("c", "çćĉċč"),
    ("d", "ðďđ"),
    ("e", "èéêëēĕėęě"),
    ("g", "ĝğġģ"),
    ("h", "ĥħ"),
    ("i", "ìíîïĩīĭįı"),
    ("j", "ĵ"),
    ("k", "ķĸ"),
    ("l", "ĺļľŀł"),
    ("n", "ñńņňŉŋ"),
    ("o", "òóôõöøōŏő"),
    ("oe", "œ"),
    ("r", "ŕŗř"),
    ("s", "śŝşšșſ"),
    ("ss", "ß"),
    ("t", "ţťŧț"),
    ("th", "þ"),
    ("u", "ùúûüũūŭůűų"),
    ("w", "ŵ"),
    ("y", "ýÿŷ"),
    ("z", "źżž"),
];

#[cfg(test)]
mod tests {
    use super::*;

    /// What is to be written can be printed, is in the table once, and is of the same case.
    #[test]
    fn the_tables() {
        let signs = SIGNS.iter().map(|&(it, ..)| it);
        let letters = LETTERS.iter().flat_map(|(_, letters)| letters.chars());
        let mut all: Vec<char> = signs.chain(letters).collect();
        assert!(all.iter().all(|it| !it.is_ascii()));
        all.sort_unstable();
        assert!(all.windows(2).all(|two| two[0] != two[1]));
        for (instead, letters) in LETTERS {
            let is_upper = |text: &str| text.starts_with(char::is_uppercase);
            assert!(instead.is_ascii());
            assert!(letters
                .chars()
                .all(|it| is_upper(&it.to_string()) == is_upper(instead)));
        }
        assert!(SIGNS.iter().all(|(_, _, instead)| instead.is_ascii()));
    }
}
