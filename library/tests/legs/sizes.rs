//! `legs sizes`.

use crate::{answers, said};

#[test]
fn sizes() {
    answers(
        &["sizes", "figure2.legs"],
        "node  natural width  natural height  allotted width  allotted height  nodes below\n   \
            0              8               3               8                3            4\n   \
            1              8               1               8                1            0\n   \
            2              7               1               8                1            2\n   \
            3              3               1               4                1            0\n   \
            4              3               1               3                1            0\n",
    );
}

#[test]
fn sizes_as_records() {
    let (tsv, _, _) = said(&["sizes", "figure2.legs", "--tsv"], b"");
    let lines: Vec<&str> = tsv.lines().collect();
    let names = "node\tnatural_width\tnatural_height\tallotted_width\tallotted_height\tnodes_below";
    assert_eq!(lines[..2], [names, "0\t8\t3\t8\t3\t4"]);
    assert_eq!(lines.len(), 6);
    let (json, _, _) = said(&["sizes", "-", "--json"], b"a");
    let record = r#"[{"node": 0, "natural_width": 3, "natural_height": 1, "allotted_width": 3, "allotted_height": 1, "nodes_below": 0}]"#;
    assert_eq!(json, format!("{record}\n"));
}
