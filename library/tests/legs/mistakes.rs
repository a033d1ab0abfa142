//! What is said of mistakes in typed lists, and of what may be one.

use crate::{fails, said};

/// What is said of a typed list on standard input, whose name is left out here.
fn mistaken(list: impl AsRef<[u8]>, shown: &str) {
    for words in [
        &["print", "-"][..],
        &["sizes", "-"],
        &["widen", "-"],
        &["bytes", "-"],
        &["type", "-"],
        &["plan", "-"],
    ] {
        let (answer, message, status) = said(words, list.as_ref());
        assert_eq!((answer.as_str(), status), ("", Some(1)), "{words:?}");
        assert_eq!(message, format!("standard input{shown}\n"), "{words:?}");
    }
}

/// The place, what is wrong, the line, and the caret under the column.
fn at(list: impl AsRef<[u8]>, place: &str, words: &str, line: &str) {
    let column: usize = place
        .split(':')
        .nth(1)
        .expect("two numbers")
        .parse()
        .expect("a number");
    let caret = " ".repeat(column - 1);
    mistaken(list, &format!(":{place}: {words}\n{line}\n{caret}^"));
}

/// A text that should have been a word: the mistake is in the line before.
#[test]
fn words_that_are_texts() {
    let meant = |list: &str, place: &str, text: &str, inside: usize, word: &str| {
        let words = format!(
            "'{text}' is a text, and line {inside} is inside it. Did you mean the word {word}?"
        );
        let line: usize = place[..1].parse().expect("a number");
        let line = list.lines().nth(line - 1).expect("a line");
        at(list, place, &words, line);
    };
    meant("Column\n  a\n", "1:1", "Column", 2, "column");
    meant("ROW\n  a\n", "1:1", "ROW", 2, "row");
    meant("# a\n\nrow \n\n  a\n", "3:1", "row ", 5, "row");
    meant("column\n  row:\n    a\n", "2:3", "row:", 3, "row");
    meant("column\n  'row\n    a\n", "2:3", "'row", 3, "row");
    meant(
        "column\n  Columns\n      a\n",
        "2:3",
        "Columns",
        3,
        "column",
    );
    meant("column\n  - row\n    a\n", "2:3", "- row", 3, "row");
}

#[test]
fn lines_that_are_too_deep() {
    let inside = "only a row or column has lines inside";
    at(
        "column\n  a\n  take off now\n    hold\n",
        "4:5",
        &format!("line 4 is inside the text 'take off now' (line 3): {inside}; two spaces fewer?"),
        "    hold",
    );
    at(
        "arrow\n    a\n",
        "2:5",
        &format!("line 2 is inside the text 'arrow' (line 1): {inside}; four spaces fewer?"),
        "    a",
    );
    let long = "x".repeat(40);
    let shown = format!("{} ..", &long[..32]);
    at(
        format!("{long}\n  a"),
        "2:3",
        &format!("line 2 is inside the text '{shown}' (line 1): {inside}; two spaces fewer?"),
        "  a",
    );
    let level = "two spaces are one level";
    at(
        "row\n\n    a\n",
        "3:5",
        &format!("two levels deeper than row in line 1: {level}"),
        "    a",
    );
    at(
        "row\n  column\n          a\n",
        "3:11",
        &format!("four levels deeper than column in line 2: {level}"),
        "          a",
    );
    at(
        "# a\n  row\n",
        "2:3",
        "the first line may not be indented",
        "  row",
    );
    let odd = "a level is two spaces, and this line begins with an odd number of them";
    at("row\n   a\n", "2:4", odd, "   a");
    let edge = "only one line can be at the left edge, and line 2 is: put row or column above it, and two more spaces in front of every line";
    at("\nrow\r\n  a\r\nrow\r\n", "4:1", edge, "row");
}

/// The character by its name and code point, and what to write instead.
#[test]
fn characters_that_cannot_be_printed() {
    let cannot = "cannot be printed, only ASCII can";
    let said = |text: &str, before: &str, words: &str, shown: &str| {
        let place = format!("2:{}", 3 + before.len());
        let words = format!("{words} {cannot}");
        let words = words.replacen(&format!("| {cannot}"), cannot, 1);
        let (who, instead) = words.split_once(cannot).expect("the words");
        at(
            format!("row\n  {before}{text}\n"),
            &place,
            &format!("{who}{cannot}{}", instead.trim_start()),
            &format!("  {before}{shown}"),
        );
    };
    let _ = said;
    let of = |line: &str, place: &str, words: &str, shown: &str| {
        at(format!("row\n{line}\n"), place, words, shown);
    };
    let letter = |it: char, instead: &str| {
        let number = u32::from(it);
        let words = format!("{it} (U+{number:04X}) {cannot}: write {instead}");
        of(&format!("  x{it}"), "2:4", &words, &format!("  x{it}"));
    };
    for (it, instead) in [
        ('á', "a"),
        ('Ő', "O"),
        ('ű', "u"),
        ('ß', "ss"),
        ('Æ', "AE"),
        ('ł', "l"),
    ] {
        letter(it, instead);
    }
    let sign = |it: char, name: &str, instead: &str| {
        let number = format!("U+{:04X}", u32::from(it));
        let words = format!("{it} ({name}, {number}) {cannot}: write {instead}");
        of(
            &format!("  x{it}"),
            "2:4",
            &words,
            &format!("  x<{number}>"),
        );
    };
    sign('°', "degree sign", "deg");
    sign('–', "en dash", "-");
    sign('“', "quotation mark", "\"");
    sign('’', "apostrophe", "'");
    sign('…', "ellipsis", "...");
    sign('→', "arrow", "->");
    let unseen = |it: char, who: &str, instead: &str| {
        let number = format!("U+{:04X}", u32::from(it));
        let words = format!("{who} ({number}) {cannot}: {instead}");
        of(
            &format!("  x{it}"),
            "2:4",
            &words,
            &format!("  x<{number}>"),
        );
    };
    unseen('\u{A0}', "a no-break space", "write a space");
    unseen('\u{200B}', "a zero-width space", "take it out");
    unseen('\u{301}', "an accent of the letter before", "take it out");
    of("  日本", "2:3", &format!("日 (U+65E5) {cannot}"), "  日本");
    of(
        "  a\u{1B}[2J",
        "2:4",
        &format!("a control character (U+001B) {cannot}"),
        "  a<1B>[2J",
    );
    of(
        "\tHome",
        "2:1",
        "a tab (U+0009) is not allowed here: type two spaces for a level",
        "<tab>Home",
    );
    of(
        "  \tHome",
        "2:3",
        "a tab (U+0009) is not allowed here: type two spaces for a level",
        "  <tab>Home",
    );
    of(
        "  a\tb",
        "2:4",
        "a tab (U+0009) cannot be printed: type spaces",
        "  a<tab>b",
    );
    let latin = format!("the byte FC {cannot}, and the file is no UTF-8; if it is ü: write u");
    at(b"row\n  F\xFCzes\n", "2:4", &latin, "  F<FC>zes");
    let other = format!("the byte 96 {cannot}, and the file is no UTF-8");
    at(b"row\n  a\x96\n", "2:4", &other, "  a<96>");
    let returns = "a carriage return (U+000D) is not allowed inside a line: save the list with line feeds at the ends of its lines";
    at(b"column\r  a\r", "1:7", returns, "column<0D>  a");
    let escape = "only n or a backslash is allowed after a backslash: type \\\\ for a backslash";
    at("a\\\n", "1:3", escape, "a\\");
    at("row\n  C:\\survey", "2:6", escape, "  C:\\survey");
}

/// Files that are no plain text as a whole. What is in comments does not matter.
#[test]
fn files_that_are_no_lists() {
    let mark = "the file begins with a byte order mark: save it as UTF-8 without BOM";
    at("\u{FEFF}row\n", "1:1", mark, "<U+FEFF>row");
    let wide = ": the file is UTF-16: save it as UTF-8 without BOM";
    mistaken(b"\xFF\xFEr\0o\0w\0", wide);
    mistaken(b"\xFE\xFF\0r\0o\0w", wide);
    mistaken(b"r\0o\0w\0\n\0", wide);
    mistaken(b"\0r\0o\0w\0\n", wide);
    let none = ": this is no text file";
    mistaken(b"\x7FELF\x02\x01\x01\0\0\0\0", none);
    mistaken([0; 200_000], none);
    mistaken(b"row\n  a\0", none);
    mistaken([b' '; 131_073], ": the list has over 131,072 bytes");
    let commented = said(&["print", "-"], b"# \0\xFF\xC3\na\n");
    assert_eq!(
        commented,
        ("+---+\n| a |\n+---+\n".into(), String::new(), Some(0))
    );
}

#[test]
fn lists_that_are_empty_or_long() {
    let empty = "the list is empty: no line has a row, a column or a text";
    at("# nothing yet\n", "2:1", empty, "");
    at("", "1:1", empty, "");
    let long = "the list is too long: with this line its tree has over 32,768 bytes";
    at([b'x'; 32_766], "1:1", long, &("x".repeat(72) + ".."));
    let nested: String = (0..17).map(|level| "  ".repeat(level) + "row\n").collect();
    at(
        nested,
        "17:33",
        "over 16 levels",
        &("  ".repeat(16) + "row"),
    );
}

/// The example of a mistake; and one in a list whose sheet is refused is that of a file of bytes.
#[test]
fn a_mistake_in_a_file() {
    let message = "mistake.list:8:6: a level is two spaces, and this line begins with an odd number of them\n     \
                   Dam, west end\n     ^\n";
    for words in [
        &["print", "mistake.list"][..],
        &["fold", "mistake.list", "60"],
        &["draft", "save", "a", "A", "mistake.list"],
    ] {
        assert_eq!(said(words, b""), (String::new(), message.into(), Some(1)));
    }
    let wide = "refused.list: refused 6: the sheet would have 406 columns, 400 is the limit";
    fails(&["print", "refused.list"], wide, 1);
}

/// What a list may not have been meant to say goes to standard error, and the answer is given all the same.
#[test]
fn warnings() {
    let warned = |list: &str, sheet: &str, warnings: &str| {
        let told = (sheet.into(), warnings.into(), Some(0));
        assert_eq!(said(&["print", "-"], list.as_bytes()), told, "{list}");
        let (_, message, status) = said(&["check", "-"], list.as_bytes());
        assert_eq!((message.as_str(), status), (warnings, Some(0)));
    };
    let a = "+---+\n| a |\n+---+\n";
    warned(
        "row\n  #1 Gate\n  a\n",
        a,
        "standard input:2:3: warning: a comment, which is not in the sheet: type '#1 Gate for the text, or # 1 Gate for a comment\n",
    );
    warned(
        "'tis\n",
        "+-----+\n| tis |\n+-----+\n",
        "standard input:1:1: warning: the quote mark in front is not in the sheet: type ''tis if it should be, or tis if not\n",
    );
    let none = "# comment\n#\n#!/bin/sh\n#-----\nrow\n  a # 1\n  it's\n  ''quoted\n  'row\n  '#1\n  '# 2\n  '  in\n  '\n  '? 2-6 x 1-3\n";
    let (_, message, status) = said(&["check", "-"], none.as_bytes());
    assert_eq!((message.as_str(), status), ("", Some(0)));
    let many = "row\n".to_string() + &"  #x\n".repeat(12);
    let (_, message, _) = said(&["check", "-"], many.as_bytes());
    assert_eq!(message.lines().count(), 11);
    assert!(message.ends_with("standard input: warning: and 2 more\n"));
    for example in ["form.list", "flight.list", "key.list"] {
        assert_eq!(said(&["check", example], b"").1, "");
    }
}
