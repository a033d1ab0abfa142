//! `legs mark`.

use crate::{misused, said};

/// What `legs mark FILE` says of these lines.
pub fn marks(file: &str, lines: &str) -> (String, String, Option<i32>) {
    said(&["mark", file], lines.as_bytes())
}

const A: &str = "2 4: node 3, line 0, column 4 of its block: a\n";
const B: &str = "2 5: node 4, line 0, column 0 of its block: b\n";

/// A line and a column, separated by spaces, a tab or a comma; blank lines and comments between them; as many as there are.
#[test]
fn mark() {
    let marked = |lines: &str, answer: String| {
        let answered = (answer, String::new(), Some(0));
        assert_eq!(marks("figure2.legs", lines), answered, "{lines:?}");
    };
    marked("2 5\n2 4\n2 5\n", [B, A, B].concat());
    marked("2 5\n 2\t4 \r\n2 5", [B, A, B].concat());
    marked("2,5\n2, 4\n 2 ,\t5\n", [B, A, B].concat());
    marked(
        "# the first\n\n2 5 # b\n   \n\t# the second\n2 4#\n",
        [B, A].concat(),
    );
    marked("", String::new());
    marked("\n# none\n", String::new());
    marked(&"2 4\n".repeat(256), A.repeat(256));
    marked(&"2 4\n2 5\n".repeat(1000), [A, B].concat().repeat(1000));
}

/// What is no place of a leaf is reported for that place alone, wherever it is, and the others are answered.
#[test]
fn every_place_is_answered() {
    let first = "1 8: node 2, line 0, column 0 of its block: Survey 17, reservoir north bank\n";
    let answered = |lines: &str, answer: &str| {
        let told = (answer.into(), String::new(), Some(1));
        assert_eq!(marks("binder.legs", lines), told);
    };
    let margin = "0 0: refused 13: the place is in the sheet's margin\n";
    let outside = "99 0: refused 12: the line or column is outside the printed sheet\n";
    answered(
        "1 8\n0 0\n99 0\n1 8\n",
        &[first, margin, outside, first].concat(),
    );
    answered("99 0\n0 0\n", &[outside, margin].concat());
    let far = "4294967297 8: refused 12: the line or column is outside the printed sheet\n";
    answered("4294967297 8\n1 8\n", &[far, first].concat());
    let many = "1 8\n".repeat(300) + "0 0\n" + &"1 8\n".repeat(300);
    answered(
        &many,
        &[&first.repeat(300), margin, &first.repeat(300)].concat(),
    );
}

/// A line that is no place is reported on standard error, with its number, and the others are answered.
#[test]
fn lines_that_are_no_places() {
    let told = |lines: &str, wrong: &[(usize, &str)]| {
        let words = |&(number, line): &(usize, &str)| {
            format!("standard input:{number}: '{line}' is no line and column\n")
        };
        let message: String = wrong.iter().map(words).collect();
        let expected = (A.to_string(), message, Some(1));
        assert_eq!(marks("figure2.legs", lines), expected, "{lines:?}");
    };
    told("2 4\n1\n", &[(2, "1")]);
    told("1 8 9\n\n2 4\nx y # z\n", &[(1, "1 8 9"), (4, "x y")]);
    told("-1 8\n2 4\n1;8\n", &[(1, "-1 8"), (3, "1;8")]);
    told(
        "2 4\n18446744073709551616 8\n",
        &[(2, "18446744073709551616 8")],
    );
    let long = "9".repeat(40);
    told(
        &format!("2 4\n{long} 1\n"),
        &[(2, &format!("{} ..", &long[..32]))],
    );
}

#[test]
fn marks_as_records() {
    let lines = b"2 5\n9 9\n";
    let of = |option: &str| said(&["mark", "figure2.legs", option], lines);
    let tsv = "line\tcolumn\tnode\tblock_line\tblock_column\ttext\trefused\n2\t5\t4\t0\t0\tb\t\n9\t9\t\t\t\t\t12\n";
    assert_eq!(of("--tsv"), (tsv.into(), String::new(), Some(1)));
    let json = r#"[{"line": 2, "column": 5, "node": 4, "block_line": 0, "block_column": 0, "text": "b", "refused": null},
 {"line": 9, "column": 9, "node": null, "block_line": null, "block_column": null, "text": null, "refused": 12}]
"#;
    assert_eq!(of("--json"), (json.into(), String::new(), Some(1)));
    let none = said(&["mark", "figure2.legs", "--json"], b"");
    assert_eq!(none, ("[]\n".into(), String::new(), Some(0)));
    misused(
        &["mark", "a", "--tsv", "--json"],
        "only one of --tsv and --json",
    );
}

/// Of a sheet that is refused no place is answered, even where there is none; and more than can be is not read.
#[test]
fn marks_are_refused() {
    let large =
        "legs: refused.legs: refused 6: the sheet would have 406 columns, 400 is the limit\n";
    for lines in ["", "1 1\n"] {
        let told = (String::new(), large.into(), Some(1));
        assert_eq!(marks("refused.legs", lines), told);
    }
    let long = "2 4\n".repeat(1 << 18) + "\n";
    let told = "legs: standard input: over 1048576 bytes\n";
    assert_eq!(
        marks("figure2.legs", &long),
        (String::new(), told.into(), Some(3))
    );
}
