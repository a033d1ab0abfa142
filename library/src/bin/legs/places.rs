//! Places on standard input, and their leaves.

use std::io::{self, Read};

use leg_sheet::{calls, Input, LeafPlace, Place, Refusal};

use crate::fault::Fault;
use crate::texts::beginning;

/// The bytes that are read at the most: for every place of the largest sheet a line.
const BYTES: usize = 1 << 20;

/// The places, a line each: a line and a column, separated by spaces, a tab or a comma. Blank lines and comments are allowed between them. With them what is wrong with other lines.
pub fn places() -> Result<(Vec<Place>, Vec<String>), Fault> {
    let failed = |error| Fault::Failed("standard input".into(), error);
    let mut bytes = Vec::new();
    let most = BYTES as u64 + 1;
    let read = io::stdin().lock().take(most).read_to_end(&mut bytes);
    if read.map_err(failed)? > BYTES {
        return Err(failed(io::Error::other(format!("over {BYTES} bytes"))));
    }
    let (mut list, mut wrong) = (Vec::new(), Vec::new());
    for (number, line) in (1..).zip(bytes.split(|&byte| byte == b'\n')) {
        let line = String::from_utf8_lossy(line);
        let line = line.split('#').next().unwrap_or_default().trim();
        match place(line) {
            _ if line.is_empty() => {}
            Some(place) => list.push(place),
            None => {
                let line = beginning(line);
                wrong.push(format!(
                    "standard input:{number}: '{line}' is no line and column"
                ));
            }
        }
    }
    Ok((list, wrong))
}

/// A line and a column, numbers from 0 on.
fn place(line: &str) -> Option<Place> {
    let words = line.split([',', ' ', '\t']).filter(|word| !word.is_empty());
    let numbers: Result<Vec<usize>, _> = words.map(str::parse).collect();
    match numbers.as_deref() {
        Ok(&[line, column]) => Some(Place { line, column }),
        _ => None,
    }
}

/// A place's leaf, or why it has none.
pub type Found = Result<LeafPlace, Refusal>;

/// The leaves of places, each as if it was looked up alone: 12 and 13 are reported for a place, and any other refusal for all.
pub fn find(input: Input, places: &[Place]) -> Result<Vec<Found>, Refusal> {
    // Without places the sheet is tested, too.
    input.places(&[])?;
    let mut found = Vec::new();
    for list in places.chunks(calls::PLACES) {
        match input.places(list) {
            Ok(marked) => found.extend(marked.answers.into_iter().map(Ok)),
            Err(_) => found.extend(list.iter().map(|it| input.place(it.line, it.column))),
        }
    }
    Ok(found)
}
