use leg_sheet::Need;

use super::{Answer, Command};
use crate::fault::Fault;
use crate::given::Given;
use crate::options::{JSON, TSV};
use crate::table::{Field, Table};

pub const COMMAND: Command = Command {
    name: "widen",
    operands: &["FILE"],
    options: &[TSV, JSON],
    takes_settings: true,
    about: "how many more letters in each Cell make the sheet wider, the fewest first",
    run,
};

fn run(given: &Given) -> Result<Answer, Fault> {
    let file = given.file()?;
    let needs = file.call(|input| input.widen())?;
    let tree = file.tree()?;
    let texts: Vec<Option<&str>> = tree.nodes().map(|node| node.text()).collect();
    let row = |need: &Need| -> [Field; 3] {
        [
            need.node.into(),
            need.letters.into(),
            texts[need.node].into(),
        ]
    };
    let table = Table {
        names: ["node", "letters", "text"],
        rows: needs.iter().map(row).collect(),
    };
    Ok(Answer::many(given, &table, || table.columns()))
}
