use leg_sheet::Settings;

use super::{Answer, Command};
use crate::fault::Fault;
use crate::given::Given;
use crate::options::{BYTES, FORCE};
use crate::over::{read_over, Over};

pub const COMMAND: Command = Command {
    name: "settings",
    operands: &["[FILE]"],
    options: &[BYTES, FORCE],
    takes_settings: true,
    about: "the settings of FILE, or the default ones, in words",
    run,
};

fn run(given: &Given) -> Result<Answer, Fault> {
    let defaults = Settings::default().to_bytes();
    let file = given.operands.first();
    let own = file.map_or(Ok(defaults.clone()), |path| {
        read_over(path, "the default settings", defaults)
    })?;
    let bytes = Over::of(given)?.over("the settings", own)?;
    if given.has(BYTES.name) {
        return Answer::bytes(given, bytes);
    }
    let settings = Settings::from_bytes(&bytes);
    let settings = settings.map_err(|refusal| Fault::refused("the settings", refusal))?;
    Ok(Answer::accepted(settings.words()))
}
