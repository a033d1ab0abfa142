//! `legs nodes`.

use crate::{answers, fails, misused, said, DEFAULTS};

/// A list and its nodes with the lines of the list; the same as bytes has none of these.
#[test]
fn nodes() {
    answers(
        &["nodes", "figure2.list"],
        "node  list line  kind    nodes below  start line  start column  width  height  text\n   \
            0          2  column            4           0             0      8       3\n   \
            1          3  text              0           0             0      8       1  abcdef\n   \
            2          4  row               2           2             0      8       1\n   \
            3          5  text              0           2             0      3       1  a\n   \
            4          6  text              0           2             4      4       1  b\n",
    );
    answers(
        &["nodes", "figure2.legs", "--margin", "3,0,1,0", "--tsv"],
        "node\tlist_line\tkind\tnodes_below\tstart_line\tstart_column\twidth\theight\ttext\n\
         0\t\tcolumn\t4\t1\t3\t8\t3\t\n\
         1\t\ttext\t0\t1\t3\t8\t1\tabcdef\n\
         2\t\trow\t2\t3\t3\t8\t1\t\n\
         3\t\ttext\t0\t3\t3\t4\t1\ta\n\
         4\t\ttext\t0\t3\t8\t3\t1\tb\n",
    );
}

#[test]
fn nodes_as_records() {
    let list = b"# skipped\nrow\n\n  a\\nb\\\\\n  'column\n  row\n";
    let of = |words: &[&str]| {
        let (answer, message, status) = said(&[&["nodes", "-"], words].concat(), list);
        assert_eq!((message.as_str(), status), ("", Some(0)));
        answer
    };
    assert_eq!(
        of(&["--json"]),
        r#"[{"node": 0, "list_line": 2, "kind": "row", "nodes_below": 3, "start_line": 0, "start_column": 0, "width": 16, "height": 2, "text": null},
 {"node": 1, "list_line": 4, "kind": "text", "nodes_below": 0, "start_line": 0, "start_column": 0, "width": 4, "height": 2, "text": "a\nb\\"},
 {"node": 2, "list_line": 5, "kind": "text", "nodes_below": 0, "start_line": 0, "start_column": 5, "width": 8, "height": 2, "text": "column"},
 {"node": 3, "list_line": 6, "kind": "row", "nodes_below": 0, "start_line": 0, "start_column": 14, "width": 2, "height": 2, "text": null}]
"#
    );
    let tsv = of(&["--tsv"]);
    assert_eq!(
        tsv.lines().nth(2),
        Some("1\t4\ttext\t0\t0\t0\t4\t2\ta\\nb\\\\")
    );
    let people = of(&[]);
    assert!(people
        .lines()
        .nth(2)
        .is_some_and(|line| line.ends_with("  a ..")));
    misused(
        &["nodes", "a", "--tsv", "--json"],
        "only one of --tsv and --json",
    );
}

/// Every leaf starts where the sheet has its top left mark.
#[test]
fn starts_are_places() {
    let (nodes, _, _) = said(&["nodes", "flight.list", "--tsv"], b"");
    let mut leaves = 0;
    for node in nodes
        .lines()
        .skip(1)
        .map(|line| line.split('\t').collect::<Vec<_>>())
    {
        if node[3] == "0" {
            let words = ["place", "flight.list", node[4], node[5], "--tsv"];
            let (place, _, _) = said(&words, b"");
            let place = place.lines().nth(1).expect("a record");
            let expected = format!("{}\t{}\t{}\t0\t0\t{}\t", node[4], node[5], node[0], node[8]);
            assert_eq!(place, expected);
            leaves += 1;
        }
    }
    assert_eq!(leaves, 40);
}

/// In a sheet that is too large they start nowhere, and a cell of no width without lines has no place; a bad tree has no nodes.
#[test]
fn nodes_without_places() {
    let (answer, message, status) = said(&["nodes", "refused.list", "--tsv"], b"");
    let large =
        "legs: refused.list: refused 6: the sheet would have 406 columns, 400 is the limit\n";
    assert_eq!((message.as_str(), status), (large, Some(0)));
    assert_eq!(answer.lines().count(), 48);
    assert_eq!(
        answer.lines().nth(2),
        Some("1\t3\ttext\t0\t\t\t7\t1\tleg 1")
    );
    let bare = ["nodes", "-", "--no-lines", "--padding", "0", "--tsv"];
    let (answer, message, _) = said(&bare, b"row\n  '\n  a\n");
    let lines: Vec<&str> = answer.lines().skip(1).collect();
    assert_eq!(message, "");
    assert_eq!(
        lines,
        [
            "0\t1\trow\t2\t0\t0\t1\t1\t",
            "1\t2\ttext\t0\t\t\t0\t1\t",
            "2\t3\ttext\t0\t0\t0\t1\t1\ta"
        ]
    );
    let (_, message, status) = said(&["nodes", "-"], &DEFAULTS[..]);
    assert!(
        message.starts_with("legs: standard input: refused 2: "),
        "{message}"
    );
    assert_eq!(status, Some(1));
    fails(
        &["nodes", "none"],
        "none: No such file or directory (os error 2)",
        3,
    );
}
