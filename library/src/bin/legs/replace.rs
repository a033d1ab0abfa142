//! A file replaced atomically: the new bytes go to a file beside it, are flushed to the disk, and replace it in one step. A command that is stopped before that
//! step leaves the old file as it was, and beside it perhaps the new one, under a name of its own.

use std::ffi::OsString;
use std::fs::{self, File, Permissions};
use std::io::{self, ErrorKind, Write};
use std::path::{Path, PathBuf};

/// What was done last. The tests stop here, after every one.
#[derive(Debug, Clone, Copy, PartialEq, Eq)]
enum Step {
    /// The new file is there, without a byte.
    Created,
    /// A block more is written.
    Written,
    /// All bytes are on the disk.
    Flushed,
    /// The new file has the old one's place.
    Renamed,
    /// And that is on the disk.
    Settled,
}

#[cfg(not(test))]
fn done(_: Step) {}
#[cfg(test)]
use tests::done;

/// The bytes that are written at a time.
const BLOCK: usize = 4096;

/// Replaces a file by one of these bytes, with its permissions; or writes a new one. On an error the old one stays, unless only the last flush failed.
pub fn replace(path: &Path, bytes: &[u8]) -> io::Result<()> {
    // A link stays, and the file that it leads to is replaced.
    let path = &fs::canonicalize(path).unwrap_or_else(|_| path.into());
    let permissions = permissions(path)?;
    let (beside, file) = create_beside(path)?;
    done(Step::Created);
    let written = fill(file, permissions, bytes).and_then(|()| fs::rename(&beside, path));
    if written.is_err() {
        // The first error is the one to report.
        let _ = fs::remove_file(&beside);
    }
    written?;
    done(Step::Renamed);
    flush_folder(path)?;
    done(Step::Settled);
    Ok(())
}

/// Creates a file of this many zero bytes. One that exists stays, and is an error.
pub fn create(path: &Path, length: usize) -> io::Result<()> {
    let file = File::create_new(path)?;
    let made = file
        .set_len(length as u64)
        .and_then(|()| file.sync_all())
        .and_then(|()| flush_folder(path));
    if made.is_err() {
        let _ = fs::remove_file(path);
    }
    made
}

/// Those of the file that is to be replaced, where there is one.
fn permissions(path: &Path) -> io::Result<Option<Permissions>> {
    match fs::metadata(path) {
        Ok(old) if old.is_file() => Ok(Some(old.permissions())),
        Ok(_) => Err(io::Error::other("not a regular file")),
        Err(error) if error.kind() == ErrorKind::NotFound => Ok(None),
        Err(error) => Err(error),
    }
}

/// A new file in the same folder: `.NAME.PROCESS-NUMBER.new`, with the first number that is free. One that was left behind is not touched.
fn create_beside(path: &Path) -> io::Result<(PathBuf, File)> {
    let process = std::process::id();
    let mut number = 0;
    loop {
        let mut name = OsString::from(".");
        name.push(path.file_name().unwrap_or_default());
        name.push(format!(".{process}-{number}.new"));
        let beside = path.with_file_name(name);
        match File::create_new(&beside) {
            Ok(file) => return Ok((beside, file)),
            Err(error) if error.kind() == ErrorKind::AlreadyExists => number += 1,
            Err(error) => return Err(error),
        }
    }
}

/// Writes the bytes and waits until they are on the disk.
fn fill(mut file: File, permissions: Option<Permissions>, bytes: &[u8]) -> io::Result<()> {
    if let Some(permissions) = permissions {
        file.set_permissions(permissions)?;
    }
    for block in bytes.chunks(BLOCK) {
        file.write_all(block)?;
        done(Step::Written);
    }
    file.sync_all()?;
    done(Step::Flushed);
    Ok(())
}

/// Waits until the names in the file's folder are on the disk.
fn flush_folder(path: &Path) -> io::Result<()> {
    let folder = match path.parent() {
        Some(folder) if folder != Path::new("") => folder,
        _ => Path::new("."),
    };
    File::open(folder)?.sync_all()
}

#[cfg(test)]
mod tests {
    use std::env;
    use std::ffi::OsStr;
    use std::os::unix::fs::{symlink, PermissionsExt};
    use std::os::unix::net::UnixListener;
    use std::process::{self, Command};
    use std::sync::atomic::{AtomicUsize, Ordering};

    use leg_sheet::{DraftStore, Settings, Tree};

    use super::*;

    /// What a child process of these tests gets: after how many steps it ends itself, and the words of its command.
    const STOP: &str = "LEGS_TEST_STOP";
    const WORDS: &str = "LEGS_TEST_WORDS";

    /// In a child process that has made as many steps as it was given: ends it here and now. Nothing is cleaned up.
    pub fn done(step: Step) {
        static STEPS: AtomicUsize = AtomicUsize::new(0);
        let steps = 1 + STEPS.fetch_add(1, Ordering::Relaxed);
        if env::var(STOP).is_ok_and(|stop| stop == steps.to_string()) {
            eprintln!("stopped: {step:?}");
            process::abort();
        }
    }

    fn run(words: &[&str]) {
        let words: Vec<OsString> = words.iter().map(OsString::from).collect();
        assert!(crate::run(&words).is_ok(), "{words:?}");
    }

    /// The child process.
    #[test]
    #[ignore = "the tests below run it"]
    fn child() {
        let words = env::var(WORDS).expect("the words of a command");
        run(&words.split('\n').collect::<Vec<_>>());
    }

    /// Runs a command in a child process that ends itself after this many steps; answers the last one, or none where the command came to its end.
    fn stopped(stop: usize, words: &[&str]) -> Option<String> {
        let output = Command::new(env::current_exe().expect("this test's program"))
            .args([
                "--ignored",
                "--exact",
                "--nocapture",
                "replace::tests::child",
            ])
            .env(STOP, stop.to_string())
            .env(WORDS, words.join("\n"))
            .output()
            .expect("a child process");
        let told = String::from_utf8(output.stderr).expect("text");
        let step = told.lines().find_map(|line| line.strip_prefix("stopped: "));
        assert_eq!(output.status.success(), step.is_none(), "{told}");
        step.map(String::from)
    }

    /// A folder for one test, empty.
    fn folder(test: &str) -> PathBuf {
        let folder = env::temp_dir().join(format!("legs-{test}-{}", process::id()));
        let _ = fs::remove_dir_all(&folder);
        fs::create_dir_all(&folder).expect("a folder");
        folder
    }

    /// The files of a folder that were left behind there.
    fn left_behind(folder: &Path) -> Vec<PathBuf> {
        let entries = fs::read_dir(folder).expect("a folder");
        let paths = entries.map(|entry| entry.expect("an entry").path());
        paths
            .filter(|path| path.extension() == Some(OsStr::new("new")))
            .collect()
    }

    /// A store of some blocks with a draft, and the file of a sheet.
    fn store_and_file(folder: &Path) -> [String; 2] {
        let path = |name| format!("{}/{name}", folder.display());
        let [store, file] = ["store", "sheet.legs"].map(path);
        let mut bytes = vec![0; 3 * BLOCK + 1];
        let mut drafts = DraftStore::new(&mut bytes);
        let tree = Tree::from("x".repeat(2 * BLOCK));
        drafts.save(b'A', &tree).expect("room");
        fs::write(&store, bytes).expect("a store");
        let tree = Tree::row(["a", "b"]).to_bytes().expect("a tree");
        let sheet = [Settings::default().to_bytes(), tree].concat();
        fs::write(&file, sheet).expect("a file");
        [store, file]
    }

    /// The command stopped after each of its steps, from the same beginning: the file is the old one until the new one has its place, then the new one; never anything
    /// else. Nothing but the new one, beside it, is left behind, and the same command then goes through.
    fn is_whole_at_every_step(words: &[&str], path: &str) -> Vec<String> {
        let old = fs::read(path).expect("a file");
        run(words);
        let new = fs::read(path).expect("a file");
        assert_ne!(old, new);
        let folder = Path::new(path).parent().expect("a folder");
        let mut steps = Vec::new();
        loop {
            fs::write(path, &old).expect("the old file");
            let step = stopped(steps.len() + 1, words);
            let bytes = fs::read(path).expect("a file");
            let left = left_behind(folder);
            let Some(step) = step else {
                assert!(bytes == new && left.is_empty());
                return steps;
            };
            let is_new = ["Renamed", "Settled"].contains(&step.as_str());
            assert!(bytes == if is_new { &new[..] } else { &old[..] }, "{step}");
            assert_eq!(left.len(), usize::from(!is_new), "{step}");
            fs::write(path, &old).expect("the old file");
            run(words);
            assert!(fs::read(path).expect("a file") == new, "{step}");
            assert_eq!(left_behind(folder), left);
            left.iter()
                .for_each(|path| fs::remove_file(path).expect("a file"));
            steps.push(step);
        }
    }

    #[test]
    fn a_stopped_save_leaves_a_whole_store() {
        let folder = folder("save");
        let [store, file] = store_and_file(&folder);
        let steps = is_whole_at_every_step(&["draft", "save", &store, "B", &file], &store);
        assert_eq!(
            steps[..5],
            ["Created", "Written", "Written", "Written", "Written"]
        );
        assert_eq!(steps[5..], ["Flushed", "Renamed", "Settled"]);
        fs::remove_dir_all(folder).expect("a folder");
    }

    #[test]
    fn a_stopped_forgetting_leaves_a_whole_store() {
        let folder = folder("forget");
        let [store, _] = store_and_file(&folder);
        let steps = is_whole_at_every_step(&["draft", "forget", &store, "A"], &store);
        assert_eq!(steps.len(), 8);
        fs::remove_dir_all(folder).expect("a folder");
    }

    #[test]
    fn a_stopped_return_leaves_a_whole_file() {
        let folder = folder("return");
        let [store, file] = store_and_file(&folder);
        let steps = is_whole_at_every_step(&["draft", "return", &store, "A", &file], &file);
        assert_eq!(steps.len(), 7);
        fs::remove_dir_all(folder).expect("a folder");
    }

    /// The permissions stay those of the old file, and a link stays a link.
    #[test]
    fn what_is_around_the_bytes_stays() {
        let folder = folder("around");
        let (path, link) = (folder.join("file"), folder.join("link"));
        fs::write(&path, "old").expect("a file");
        symlink(&path, &link).expect("a link");
        for mode in [0o600, 0o640, 0o666, 0o444] {
            let permissions = Permissions::from_mode(mode);
            fs::set_permissions(&path, permissions).expect("permissions");
            replace(&link, &[mode as u8; 9]).expect("a file replaced");
            let after = fs::metadata(&path).expect("a file").permissions();
            assert_eq!(after.mode() & 0o7777, mode);
            assert_eq!(fs::read(&path).expect("a file"), [mode as u8; 9]);
            assert!(link.is_symlink());
        }
        assert!(left_behind(&folder).is_empty());
        fs::remove_dir_all(folder).expect("a folder");
    }

    /// Neither a folder is replaced nor a socket; and no file is made in a folder that is not there.
    #[test]
    fn what_is_no_file_stays() {
        let folder = folder("none");
        let socket = folder.join("socket");
        let _bound = UnixListener::bind(&socket).expect("a socket");
        for path in [&folder, &socket, &folder.join("no/file")] {
            assert!(replace(path, b"new").is_err());
        }
        let entries = fs::read_dir(&folder).expect("a folder");
        assert_eq!(entries.count(), 1);
        assert!(!socket.is_file());
        fs::remove_dir_all(folder).expect("a folder");
    }
}
