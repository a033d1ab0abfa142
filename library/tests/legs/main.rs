//! The command `legs`, as it was built: its answers, messages and exit status, by command.

mod blank;
mod check;
mod drafts;
mod endless;
mod fold;
mod help;
mod leaf;
mod mark;
mod mistakes;
mod nodes;
mod place;
mod plan;
mod print;
mod refusals;
mod settings;
mod sizes;
mod terminal;
mod typed;
mod widen;

use std::io::Write;
use std::process::{Command, Output, Stdio};

/// Figure F2 of document 01.
const FIGURE_2: &str = "1--------2\n( abcdef )\n7----3---8\n( a  ( b )\n4____6___5\n";

/// The record of the defaults.
const DEFAULTS: &[u8; 31] = b"\x10\x00\x1C--||-|+++++++++\x01\x01\x00\x00    \x00\x00\x00\x01\x02";

/// Runs the command with these words, in the folder of the examples, and this on standard input.
fn legs(words: &[&str], input: &[u8]) -> Output {
    let mut child = Command::new(env!("CARGO_BIN_EXE_legs"))
        .args(words)
        .current_dir(concat!(env!("CARGO_MANIFEST_DIR"), "/../examples"))
        .stdin(Stdio::piped())
        .stdout(Stdio::piped())
        .stderr(Stdio::piped())
        .spawn()
        .expect("legs starts");
    // A command that does not read its standard input may have closed it.
    let _ = child.stdin.take().expect("a pipe").write_all(input);
    child.wait_with_output().expect("legs ends")
}

/// What it wrote to standard output and standard error, and its status.
fn said(words: &[&str], input: &[u8]) -> (String, String, Option<i32>) {
    let output = legs(words, input);
    let text = |bytes| String::from_utf8(bytes).expect("text");
    (
        text(output.stdout),
        text(output.stderr),
        output.status.code(),
    )
}

fn answers(words: &[&str], answer: &str) {
    assert_eq!(said(words, b""), (answer.into(), String::new(), Some(0)));
}

fn fails(words: &[&str], message: &str, status: i32) {
    let message = format!("legs: {message}\n");
    assert_eq!(said(words, b""), (String::new(), message, Some(status)));
}

/// A folder for one test, which goes with it.
struct Folder(String);

impl Folder {
    fn new(test: &str) -> Folder {
        let folder = std::env::temp_dir().join(format!("legs-{test}-{}", std::process::id()));
        let _ = std::fs::remove_dir_all(&folder);
        std::fs::create_dir_all(&folder).expect("a folder");
        Folder(folder.to_str().expect("text").into())
    }

    fn path(&self, name: &str) -> String {
        format!("{}/{name}", self.0)
    }

    /// The names of its files, in their order.
    fn files(&self) -> Vec<String> {
        let entries = std::fs::read_dir(&self.0).expect("a folder");
        let name = |entry: std::io::Result<std::fs::DirEntry>| entry.expect("an entry").file_name();
        let mut names: Vec<String> = entries
            .map(|entry| name(entry).into_string().expect("text"))
            .collect();
        names.sort();
        names
    }
}

impl Drop for Folder {
    fn drop(&mut self) {
        let _ = std::fs::remove_dir_all(&self.0);
    }
}

/// Words that are not understood.
fn misused(words: &[&str], message: &str) {
    let message = format!("usage: {message}; 'legs --help' says more");
    fails(words, &message, 2);
}
