//! `legs print`, and input and output that fail.

use std::io::Write;
use std::process::{Command, Stdio};

use crate::{answers, fails, said, FIGURE_2};

#[test]
fn prints() {
    answers(&["print", "figure2.legs"], FIGURE_2);
    answers(
        &["print", "binder.legs"],
        include_str!("../../../examples/binder.txt"),
    );
    answers(
        &["print", "blank.legs"],
        include_str!("../../../examples/blank.txt"),
    );
    answers(
        &["print", "list.legs"],
        include_str!("../../../examples/list.txt"),
    );
    answers(
        &["print", "tablet.legs"],
        include_str!("../../../examples/tablet.txt"),
    );
    answers(
        &["print", "key.legs"],
        include_str!("../../../examples/key.txt"),
    );
}

#[test]
fn reads_standard_input() {
    let path = concat!(env!("CARGO_MANIFEST_DIR"), "/../examples/figure2.legs");
    let bytes = std::fs::read(path).expect("an example");
    let printed = said(&["print", "-"], &bytes);
    assert_eq!(printed, (FIGURE_2.into(), String::new(), Some(0)));
}

#[test]
fn input_that_fails() {
    let missing = "none.legs: No such file or directory (os error 2)";
    fails(&["print", "none.legs"], missing, 3);
    fails(&["check", "."], ".: Is a directory (os error 21)", 3);
}

#[test]
fn output_that_fails() {
    let full = std::fs::File::create("/dev/full").expect("a device that is full");
    let output = Command::new(env!("CARGO_BIN_EXE_legs"))
        .args(["--help"])
        .stdout(full)
        .output()
        .expect("legs runs");
    assert_eq!(output.status.code(), Some(3));
    let message = String::from_utf8(output.stderr).expect("text");
    assert!(message.starts_with("legs: standard output: "), "{message}");
}

/// Where no one reads the answer any more it ends silently, as a command does that SIGPIPE ends.
#[test]
fn output_that_is_not_read() {
    let mut child = Command::new(env!("CARGO_BIN_EXE_legs"))
        .args(["print", "-"])
        .stdin(Stdio::piped())
        .stdout(Stdio::piped())
        .stderr(Stdio::piped())
        .spawn()
        .expect("legs starts");
    drop(child.stdout.take());
    let mut input = child.stdin.take().expect("a pipe");
    input.write_all(b"a\n").expect("a list");
    drop(input);
    let output = child.wait_with_output().expect("legs ends");
    let told = (output.stderr.as_slice(), output.status.code());
    assert_eq!(told, (&b""[..], Some(141)));
}

/// The numbers of lines and columns, from 0 on, which `legs place` takes.
#[test]
fn rulers() {
    answers(
        &["print", "figure2.legs", "--rulers"],
        "  0\n  0123456789\n0 1--------2\n1 ( abcdef )\n2 7----3---8\n3 ( a  ( b )\n4 4____6___5\n",
    );
    let (text, _, _) = said(&["print", "flight.list", "--rulers"], b"");
    let lines: Vec<&str> = text.lines().collect();
    assert_eq!(&lines[0][..16], "   0         10 ");
    assert_eq!(&lines[1][..16], "   0123456789012");
    assert!(lines[12].starts_with("10 |   +--"), "{}", lines[12]);
    assert!(lines[4].starts_with(" 2 |     "), "{}", lines[4]);
}
