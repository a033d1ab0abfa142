use leg_sheet::Place;

use super::{Answer, Command};
use crate::fault::Fault;
use crate::given::Given;
use crate::marked::{lines, table};
use crate::options::{JSON, TSV};

pub const COMMAND: Command = Command {
    name: "place",
    operands: &["FILE", "LINE", "COLUMN"],
    options: &[TSV, JSON],
    takes_settings: true,
    about: "the leaf that has this place of the sheet, and where in its block",
    run,
};

fn run(given: &Given) -> Result<Answer, Fault> {
    let (line, column) = (given.number(1)?, given.number(2)?);
    let file = given.file()?;
    let leaf = file.call(|input| input.place(line, column))?;
    let (tree, marked) = (file.tree()?, [(Place { line, column }, Ok(leaf))]);
    Ok(Answer::one(given, &table(&tree, &marked), || {
        lines(&tree, &marked)
    }))
}
