//! `legs plan`.

use crate::{answers, said, DEFAULTS};

#[test]
fn plan() {
    answers(
        &["plan", "flight.plan"],
        "columns: 32 to 47\nlines: 12 to 16\n",
    );
    answers(&["plan", "figure2.legs"], "columns: 10\nlines: 5\n");
    answers(
        &["plan", "refused.legs"],
        "columns: 406\nlines: 3\n\
         too large with any texts: a sheet has up to 400 columns and 160 lines\n",
    );
    let planned = |range: &[u8; 4], answer: &str| {
        let input = [&DEFAULTS[..], b"\x04\x00\x04", range].concat();
        let answered = (answer.into(), String::new(), Some(0));
        assert_eq!(said(&["plan", "-"], &input), answered);
    };
    planned(b"\x00\xFF\x01\x9E", "columns: 4 to 259\nlines: 3 to 160\n");
    planned(
        b"\x00\xFF\x01\x9F",
        "columns: 4 to 259\nlines: 3 to 161\n\
         too large with some texts: a sheet has up to 400 columns and 160 lines\n",
    );
    planned(
        b"\x00\x00\x9F\xA0",
        "columns: 4\nlines: 161 to 162\n\
         too large with any texts: a sheet has up to 400 columns and 160 lines\n",
    );
}

/// A range that is none, and a range where a tree belongs.
#[test]
fn plans_are_refused() {
    let bad = [&DEFAULTS[..], b"\x04\x00\x04\x03\x02\x01\x01"].concat();
    let (_, message, status) = said(&["plan", "-"], &bad);
    let range = "refused 17: a range has a least above its greatest, or a least line count of 0";
    assert_eq!(message, format!("legs: standard input: {range}\n"));
    assert_eq!(status, Some(1));
    for words in [
        &["print", "flight.plan"][..],
        &["sizes", "flight.plan"],
        &["leaf", "flight.plan", "0"],
        &["place", "flight.plan", "0", "0"],
        &["mark", "flight.plan"],
        &["fold", "flight.plan", "60"],
        &["widen", "flight.plan"],
    ] {
        let (_, message, status) = said(words, b"");
        assert!(message.contains("flight.plan: refused 2: "), "{message}");
        assert_eq!(status, Some(1));
    }
}

/// A list in which a line may be a range; a number alone is both ends, and without a count it is one line.
#[test]
fn plans_are_typed() {
    answers(
        &["plan", "plan.list"],
        "columns: 32 to 47\nlines: 12 to 16\n",
    );
    let typed = |list: &str, columns: &str, lines: &str| {
        let answer = format!("columns: {columns}\nlines: {lines}\n");
        let told = (answer, String::new(), Some(0));
        assert_eq!(said(&["plan", "-"], list.as_bytes()), told, "{list}");
    };
    typed("column\n  abcd\n  ? 2-6 x 1-3\n", "8 to 10", "5 to 7");
    typed("# to come\n? 2-5x1-3", "6 to 9", "3 to 5");
    typed("? 2 - 5  x  1 - 3  \r\n", "6 to 9", "3 to 5");
    typed("? 3", "7", "3");
    typed("? 0-255", "4 to 259", "3");
    typed("? 4 x 2", "8", "4");
    // Texts, as in any other list.
    typed("'? 2-6 x 1-3", "15", "3");
    typed("?", "5", "3");
    typed("?2-6", "8", "3");
    typed("row\n  ab\n", "6", "3");
}

#[test]
fn ranges_that_are_none() {
    let words = "a range is typed as ? 2-6 x 1-3: the least and the greatest width, 0 to 255, and the least and the greatest count of lines, 1 to 255; a text that begins with ? has a quote mark in front";
    for range in [
        "? 6-2",
        "? 2 x 0",
        "? 2 x 3-1",
        "? 256",
        "? x 1",
        "? 2-",
        "? 2-3-4",
        "? 2 x 1 x 1",
        "? what",
        "? 2-6 x 1-3 m",
        "? +2",
    ] {
        let list = format!("row\n  ? 2\n\n  {range}\n");
        let message = format!("standard input:4:3: {words}\n  {range}\n  ^\n");
        let told = (String::new(), message, Some(1));
        assert_eq!(said(&["plan", "-"], list.as_bytes()), told);
        // To any other command it is a text.
        assert_eq!(said(&["print", "-"], list.as_bytes()).2, Some(0));
    }
}

#[test]
fn plans_as_records() {
    let names = "least_columns\tgreatest_columns\tleast_lines\tgreatest_lines\tfits\n";
    answers(
        &["plan", "plan.list", "--tsv"],
        &format!("{names}32\t47\t12\t16\tany\n"),
    );
    let json = |list: &str, fits: &str| {
        let (answer, _, status) = said(&["plan", "-", "--json"], list.as_bytes());
        assert_eq!(status, Some(0));
        assert!(
            answer.ends_with(&format!("\"fits\": \"{fits}\"}}\n")),
            "{answer}"
        );
    };
    json("? 2-6 x 1-158", "any");
    json("? 2-6 x 1-159", "some");
    json("? 2-6 x 159", "none");
    answers(
        &["plan", "figure2.legs", "--json"],
        "{\"least_columns\": 10, \"greatest_columns\": 10, \"least_lines\": 5, \"greatest_lines\": 5, \"fits\": \"any\"}\n",
    );
}
