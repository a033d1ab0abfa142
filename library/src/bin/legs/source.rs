//! The bytes of a file, or of standard input.

use std::ffi::OsStr;
use std::fs;
use std::io::{self, Read};

use leg_sheet::calls;

use crate::fault::Fault;

/// The first byte of settings. A file that begins with another has text.
const SETTINGS_TAG: u8 = 0x10;

/// What was read, with the file's name for messages.
pub struct Source {
    pub name: String,
    pub bytes: Vec<u8>,
}

impl Source {
    /// Reads a file, or standard input where it is called `-`; no more of it than can make a difference: no input that is accepted is as long as this.
    pub fn read(path: &OsStr) -> Result<Source, Fault> {
        let most = calls::TYPED as u64 + 1;
        let mut bytes = Vec::new();
        let (name, done) = if path == "-" {
            let done = io::stdin().lock().take(most).read_to_end(&mut bytes);
            ("standard input".into(), done)
        } else {
            let file = fs::File::open(path);
            let done = file.and_then(|file| file.take(most).read_to_end(&mut bytes));
            (path.to_string_lossy().into_owned(), done)
        };
        match done {
            Ok(_) => Ok(Source { name, bytes }),
            Err(error) => Err(Fault::Failed(name, error)),
        }
    }

    /// Whether it is text, a typed list or settings in words, and not bytes.
    pub fn is_text(&self) -> bool {
        self.bytes.first() != Some(&SETTINGS_TAG)
    }
}
