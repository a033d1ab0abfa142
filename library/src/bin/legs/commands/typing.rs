use std::io;

use leg_sheet::{calls, Settings, Tree};

use super::{Answer, Command};
use crate::fault::Fault;
use crate::given::Given;

pub const COMMAND: Command = Command {
    name: "type",
    operands: &["FILE"],
    options: &[],
    takes_settings: false,
    about: "the tree of FILE as a typed list, without its settings",
    run,
};

/// The settings are read, too: without them it is not known where the tree begins.
fn run(given: &Given) -> Result<Answer, Fault> {
    let file = given.file()?;
    file.call(|input| Settings::from_bytes(input.settings))?;
    let tree = file.tree()?;
    typed(&file.name, &tree).map(Answer::accepted)
}

/// A tree as a typed list, which the proved reader has read back to the same tree.
pub fn typed(name: &str, tree: &Tree) -> Result<String, Fault> {
    let text = tree.typed();
    let bytes = tree
        .to_bytes()
        .map_err(|refusal| Fault::refused(name, refusal))?;
    let mut back = vec![0; bytes.len()];
    if calls::read_typed(text.as_bytes(), &mut back) != Ok(bytes.len()) || back != bytes {
        let error = io::Error::other("as a typed list it is read as another tree");
        return Err(Fault::Failed(name.into(), error));
    }
    Ok(text)
}
