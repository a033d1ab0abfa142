//! `legs place`.

use crate::answers;

/// A place on each side of the line between two leaves; then with a margin of eight columns and a line.
#[test]
fn place() {
    let a = "2 4: node 3, line 0, column 4 of its block: a\n";
    answers(&["place", "figure2.legs", "2", "4"], a);
    let b = "2 5: node 4, line 0, column 0 of its block: b\n";
    answers(&["place", "figure2.legs", "2", "5"], b);
    let survey = "node 2, line 0, column 0 of its block: Survey 17, reservoir north bank\n";
    answers(
        &["place", "flight.legs", "0", "0"],
        &format!("0 0: {survey}"),
    );
    answers(
        &["place", "binder.legs", "1", "8"],
        &format!("1 8: {survey}"),
    );
    // An empty row has no text.
    let row = "9 0: node 15, line 0, column 0 of its block:\n";
    answers(&["place", "form.list", "9", "0"], row);
}

#[test]
fn places_as_records() {
    answers(
        &["place", "figure2.legs", "2", "5", "--tsv"],
        "line\tcolumn\tnode\tblock_line\tblock_column\ttext\trefused\n2\t5\t4\t0\t0\tb\t\n",
    );
    answers(
        &["place", "figure2.legs", "2", "5", "--json"],
        r#"{"line": 2, "column": 5, "node": 4, "block_line": 0, "block_column": 0, "text": "b", "refused": null}
"#,
    );
}
