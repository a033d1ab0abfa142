use leg_sheet::SizeRecord;

use super::{Answer, Command};
use crate::fault::Fault;
use crate::given::Given;
use crate::options::{JSON, TSV};
use crate::table::{Field, Table};

pub const COMMAND: Command = Command {
    name: "sizes",
    operands: &["FILE"],
    options: &[TSV, JSON],
    takes_settings: true,
    about: "what each node needs and is allotted, and the nodes below it, by its number",
    run,
};

fn run(given: &Given) -> Result<Answer, Fault> {
    let sizes = given.file()?.call(|input| input.sizes())?;
    let table = Table {
        names: [
            "node",
            "natural_width",
            "natural_height",
            "allotted_width",
            "allotted_height",
            "nodes_below",
        ],
        rows: sizes.iter().enumerate().map(record).collect(),
    };
    Ok(Answer::many(given, &table, || table.columns()))
}

fn record((node, size): (usize, &SizeRecord)) -> [Field; 6] {
    let [natural_width, natural_height, width, height, below] = size.to_numbers().map(Field::from);
    [
        node.into(),
        natural_width,
        natural_height,
        width,
        height,
        below,
    ]
}
