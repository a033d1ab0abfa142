//! A file that is a store of drafts.

use std::ffi::OsStr;
use std::fs;
use std::io::{self, Read};
use std::path::{Path, PathBuf};

use leg_sheet::{DraftStore, Refusal};

use crate::fault::Fault;
use crate::replace;

/// The most bytes of such a file. Eight drafts of the longest trees take 262,168.
const BYTES: usize = 1 << 20;

/// A store that was read, with its name for messages.
pub struct StoreFile {
    name: String,
    path: PathBuf,
    bytes: Vec<u8>,
}

impl StoreFile {
    /// Creates a store without a draft, where no file is.
    pub fn create(path: &OsStr, length: usize) -> Result<(), Fault> {
        if length > BYTES {
            return Err(Fault::Usage(format!("a store has up to {BYTES} bytes")));
        }
        let failed = |error| Fault::Failed(path.to_string_lossy().into(), error);
        replace::create(Path::new(path), length).map_err(failed)
    }

    pub fn read(path: &OsStr) -> Result<StoreFile, Fault> {
        let name = path.to_string_lossy().into_owned();
        let path = PathBuf::from(path);
        match read(&path) {
            Ok(bytes) => Ok(StoreFile { name, path, bytes }),
            Err(error) => Err(Fault::Failed(name, error)),
        }
    }

    pub fn name(&self) -> &str {
        &self.name
    }

    /// What a call answers on the store.
    pub fn call<T>(
        &mut self,
        call: impl FnOnce(&mut DraftStore) -> Result<T, Refusal>,
    ) -> Result<T, Fault> {
        call(&mut DraftStore::new(&mut self.bytes))
            .map_err(|refusal| Fault::refused(&self.name, refusal))
    }

    /// Puts the store as it is now in the file's place.
    pub fn keep(self) -> Result<(), Fault> {
        replace::replace(&self.path, &self.bytes).map_err(|error| Fault::Failed(self.name, error))
    }
}

/// The bytes of a regular file that is not too long: no other can be replaced whole.
fn read(path: &Path) -> io::Result<Vec<u8>> {
    if !fs::metadata(path)?.is_file() {
        return Err(io::Error::other("not a regular file"));
    }
    let mut bytes = Vec::new();
    let most = BYTES as u64 + 1;
    fs::File::open(path)?.take(most).read_to_end(&mut bytes)?;
    if bytes.len() > BYTES {
        return Err(io::Error::other(format!("over {BYTES} bytes")));
    }
    Ok(bytes)
}
