//! Bytes and a terminal.

use std::ffi::{c_char, c_int, CStr};
use std::fs::{File, OpenOptions};
use std::io::Read;
use std::os::fd::{FromRawFd, IntoRawFd};
use std::process::{Command, Stdio};

use crate::Folder;

// The terminals of the C library, which the standard library uses.
extern "C" {
    fn grantpt(fd: c_int) -> c_int;
    fn unlockpt(fd: c_int) -> c_int;
    fn ptsname(fd: c_int) -> *const c_char;
}

/// A terminal: the side that reads what is written to it, and the side that a command has.
fn terminal() -> (File, File) {
    let open = |path: &str| OpenOptions::new().read(true).write(true).open(path);
    let fd = open("/dev/ptmx").expect("a terminal").into_raw_fd();
    // SAFETY: the file is open, and is passed to no one else; the name is copied before another call could change it. No other test opens one.
    let (reader, name) = unsafe {
        assert!(grantpt(fd) == 0 && unlockpt(fd) == 0);
        let name = CStr::from_ptr(ptsname(fd))
            .to_str()
            .expect("text")
            .to_string();
        (File::from_raw_fd(fd), name)
    };
    (reader, open(&name).expect("the other side"))
}

/// What the command writes to a terminal, what it says, and its status.
fn on_terminal(words: &[&str]) -> (Vec<u8>, String, Option<i32>) {
    let (mut reader, writer) = terminal();
    let output = Command::new(env!("CARGO_BIN_EXE_legs"))
        .args(words)
        .current_dir(concat!(env!("CARGO_MANIFEST_DIR"), "/../examples"))
        .stdin(Stdio::null())
        .stdout(writer)
        .stderr(Stdio::piped())
        .output()
        .expect("legs runs");
    let mut written = Vec::new();
    // Where the other side is closed reading fails, after all was read.
    let _ = reader.read_to_end(&mut written);
    let message = String::from_utf8(output.stderr).expect("text");
    (written, message, output.status.code())
}

/// Bytes are not written there, unless that is requested; texts are.
#[test]
fn bytes_and_a_terminal() {
    let folder = Folder::new("terminal");
    let store = folder.path("store");
    std::fs::write(&store, b"\x20\x00\x04\x01\x00\x01a").expect("a store");
    let refused = "legs: usage: these are bytes, and standard output is a terminal: add > FILE or --force; 'legs --help' says more\n";
    for words in [
        &["bytes", "figure2.list"][..],
        &["blank", "figure2.list", "--all"],
        &["settings", "--bytes"],
        &["draft", "return", &store, "A"],
    ] {
        assert_eq!(on_terminal(words), (Vec::new(), refused.into(), Some(2)));
        let (written, message, status) = on_terminal(&[words, &["--force"]].concat());
        assert_eq!(
            (written.first(), message.as_str(), status),
            (Some(&0x10), "", Some(0))
        );
    }
    for words in [
        &["settings"][..],
        &["blank", "figure2.list", "--all", "--typed"],
        &["draft", "return", &store, "A", "--typed"],
        &["print", "figure2.list"],
    ] {
        let (written, message, status) = on_terminal(words);
        assert!(!written.is_empty() && written.is_ascii());
        assert_eq!((message.as_str(), status), ("", Some(0)));
    }
}
