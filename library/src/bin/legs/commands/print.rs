use super::{Answer, Command};
use crate::fault::Fault;
use crate::given::Given;
use crate::options::RULERS;
use crate::rulers::between_rulers;

pub const COMMAND: Command = Command {
    name: "print",
    operands: &["FILE"],
    options: &[RULERS],
    takes_settings: true,
    about: "the sheet",
    run,
};

fn run(given: &Given) -> Result<Answer, Fault> {
    let sheet = given.file()?.call(|input| input.print_sheet())?;
    if given.has(RULERS.name) {
        return Ok(Answer::accepted(between_rulers(&sheet)));
    }
    Ok(Answer::accepted(sheet + "\n"))
}
