use leg_sheet::{Folded, Input, Refusal, Tree};

use super::{listed, typing, Answer, Command};
use crate::fault::Fault;
use crate::given::{number, Given};
use crate::options::{JSON, LIST, TSV};
use crate::shown::tell;
use crate::table::{Field, Format, Table};

pub const COMMAND: Command = Command {
    name: "fold",
    operands: &["FILE", "WIDTH", "[BUDGET]"],
    options: &[LIST, TSV, JSON],
    takes_settings: true,
    about:
        "the sheet of a list folded into Columns of one Row; what was found goes to standard error",
    run,
};

fn run(given: &Given) -> Result<Answer, Fault> {
    let width = given.number(1)?;
    let budget = given.operands.get(2);
    let budget = budget.map_or(Ok(usize::MAX), |word| number(word))?;
    let is_found = Format::of(given) != Format::People;
    if is_found && given.has(LIST.name) {
        return Err(Fault::Usage("only one of --list, --tsv and --json".into()));
    }
    let file = given.file()?;
    let folded = file.call(|input| input.fold(width, budget))?;
    if is_found {
        return Ok(Answer::one(given, &table(&folded), String::new));
    }
    let row = file.call(|input| row(input, &folded))?;
    let answer = if given.has(LIST.name) {
        typing::typed(&file.name, &row)?
    } else {
        let tree = file.refuse(row.to_bytes())?;
        let file = file.with_tree(tree);
        file.call(|input| input.print_sheet())? + "\n"
    };
    tell(&line(&folded));
    Ok(Answer::accepted(answer))
}

/// The Row that the list is folded into.
fn row(input: Input, folded: &Folded) -> Result<Tree, Refusal> {
    let list = Tree::from_bytes(input.tree)?;
    let row = list.folded(&folded.columns);
    Ok(row.expect("the list's own counts"))
}

fn table(folded: &Folded) -> Table<4> {
    Table::one([
        ("columns", Field::Numbers(folded.columns.clone())),
        ("height", folded.height.into()),
        ("tries", folded.tries.into()),
        ("miss", folded.miss.into()),
    ])
}

fn line(folded: &Folded) -> String {
    format!(
        "columns: {}; height: {}, tries: {}, miss: {}",
        listed(&folded.columns),
        folded.height,
        folded.tries,
        folded.miss,
    )
}
