use leg_sheet::{calls, Settings};

use super::{Answer, Command};
use crate::fault::Fault;
use crate::given::Given;
use crate::options::FORCE;

pub const COMMAND: Command = Command {
    name: "bytes",
    operands: &["FILE"],
    options: &[FORCE],
    takes_settings: true,
    about: "the settings and the tree of a typed list as bytes",
    run,
};

fn run(given: &Given) -> Result<Answer, Fault> {
    let file = given.file()?;
    file.call(|input| Settings::from_bytes(input.settings))?;
    file.call(|input| calls::read_tree(input.tree))?;
    let input = file.input();
    Answer::bytes(given, [input.settings, input.tree].concat())
}
