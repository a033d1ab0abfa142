//! Input without end.

use std::process::Command;

use crate::said;

/// No more is read of an input without end than can be accepted.
#[test]
fn an_endless_input_ends() {
    let (_, message, status) = said(&["print", "/dev/zero"], b"");
    assert_eq!(message, "/dev/zero: this is no text file\n");
    assert_eq!(status, Some(1));

    let endless = std::fs::File::open("/dev/zero").expect("a device without end");
    let output = Command::new(env!("CARGO_BIN_EXE_legs"))
        .args(["mark", "figure2.legs"])
        .current_dir(concat!(env!("CARGO_MANIFEST_DIR"), "/../examples"))
        .stdin(endless)
        .output()
        .expect("legs runs");
    assert_eq!(output.status.code(), Some(3));
}
