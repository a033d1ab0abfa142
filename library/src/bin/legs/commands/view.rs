use std::ffi::OsStr;

use super::{Answer, Command};
use crate::fault::Fault;
use crate::file::File;
use crate::given::Given;
use crate::options::PAPER;
use crate::over::Over;
use crate::source::Source;
use crate::view::page;

pub const COMMAND: Command = Command {
    name: "view",
    operands: &["FILE"],
    options: &[PAPER],
    takes_settings: true,
    about: "the sheet as a page for a browser, to find, fold and mark cells",
    run,
};

fn run(given: &Given) -> Result<Answer, Fault> {
    let over = Over::of(given)?;
    let (key, paper) = (&given.operands[0], given.value(PAPER.name));
    let is_input = |word: &OsStr| word == "-";
    let (key_is, paper_is) = (is_input(key), paper.is_some_and(is_input));
    let settings_are = over.is_from("-");
    if key_is && paper_is || settings_are && (key_is || paper.is_some()) {
        return Err(Fault::Usage(
            "standard input is read once: give - once".into(),
        ));
    }
    // Each under the settings of the options.
    let read = |path: &OsStr| File::of(Source::read(path)?, &over);
    let (key, paper) = (read(key)?, paper.map(read).transpose()?);
    Ok(Answer::accepted(page(&key, paper.as_ref())?))
}
