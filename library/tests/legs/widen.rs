//! `legs widen`.

use crate::{answers, said, DEFAULTS};

/// The Cells of figure F2, and of a list whose texts have more lines or are longer than is shown; one without a Cell.
#[test]
fn widen() {
    answers(
        &["widen", "figure2.legs"],
        "node  letters  text\n   1        1  abcdef\n   3        2  a\n   4        2  b\n",
    );
    let texts =
        "\x03\x00\x30\x01\x00\x21abcdefghijklmnopqrstuvwxyz 012345\x01\x00\x06two\nup\x01\x00\x00";
    let input = [&DEFAULTS[..], texts.as_bytes()].concat();
    let answer = "node  letters  text\n\
                  \x20  1        1  abcdefghijklmnopqrstuvwxyz 01234 ..\n\
                  \x20  2       31  two ..\n\
                  \x20  3       34\n";
    let answered = (answer.into(), String::new(), Some(0));
    assert_eq!(said(&["widen", "-"], &input), answered);
    let input = [&DEFAULTS[..], b"\x02\x00\x00"].concat();
    let answered = ("node  letters  text\n".into(), String::new(), Some(0));
    assert_eq!(said(&["widen", "-"], &input), answered);
    let (_, message, status) = said(&["widen", "-"], &DEFAULTS[..]);
    assert!(message.contains("standard input: refused 2"), "{message}");
    assert_eq!(status, Some(1));
}

#[test]
fn letters_as_records() {
    let (tsv, _, _) = said(&["widen", "-", "--tsv"], b"row\n  a\\nb\n");
    assert_eq!(tsv, "node\tletters\ttext\n1\t1\ta\\nb\n");
    let (json, _, _) = said(&["widen", "-", "--json"], b"\"a\\n\\\\\"");
    let record = r#"[{"node": 0, "letters": 1, "text": "\"a\n\\\""}]"#;
    assert_eq!(json, format!("{record}\n"));
}
