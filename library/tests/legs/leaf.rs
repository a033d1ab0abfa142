//! `legs leaf`.

use crate::answers;

#[test]
fn leaf() {
    answers(
        &["leaf", "figure2.legs", "4"],
        "node 4: 3 wide, 1 high\n\
         flags: last_row last_col lean_top\n\
         cut: 0 taken, 0 left of the next\n\
         horizontal pieces: none\n\
         vertical pieces: 1\n\
         \n\
         3---8\n( b )\n6___5\n",
    );
}

#[test]
fn leaves_as_records() {
    answers(
        &["leaf", "figure2.legs", "4", "--tsv"],
        "node\twidth\theight\tflags\tcut_taken\tcut_left\thorizontal_pieces\tvertical_pieces\tblock\n\
         4\t3\t1\tlast_row last_col lean_top\t0\t0\t\t1\t3---8\\n( b )\\n6___5\n",
    );
    answers(
        &["leaf", "figure2.legs", "4", "--json"],
        r#"{"node": 4, "width": 3, "height": 1, "flags": ["last_row", "last_col", "lean_top"], "cut_taken": 0, "cut_left": 0, "horizontal_pieces": [], "vertical_pieces": [1], "block": "3---8\n( b )\n6___5"}
"#,
    );
}
