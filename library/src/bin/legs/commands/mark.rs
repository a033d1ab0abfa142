use super::{Answer, Command};
use crate::fault::{Fault, REFUSED};
use crate::given::Given;
use crate::marked::{lines, table, Marked};
use crate::options::{JSON, TSV};
use crate::over::Over;
use crate::places::{find, places};
use crate::shown::tell;

pub const COMMAND: Command = Command {
    name: "mark",
    operands: &["FILE"],
    options: &[TSV, JSON],
    takes_settings: true,
    about: "as legs place, for each line of standard input: LINE COLUMN, or LINE,COLUMN; comments and blank lines are skipped",
    run,
};

/// Every place is answered: a place without a leaf has its number, and a line that is no place is reported on standard error.
fn run(given: &Given) -> Result<Answer, Fault> {
    if given.operands[0] == "-" || Over::of(given)?.is_from("-") {
        return Err(Fault::Usage(
            "standard input has the places: - cannot be given".into(),
        ));
    }
    let file = given.file()?;
    let (places, wrong) = places()?;
    let found = file.call(|input| find(input, &places))?;
    let marked: Vec<Marked> = places.into_iter().zip(found).collect();
    let tree = file.tree()?;
    let mut answer = Answer::many(given, &table(&tree, &marked), || lines(&tree, &marked));
    wrong.iter().for_each(|line| tell(line));
    if !wrong.is_empty() || marked.iter().any(|(_, found)| found.is_err()) {
        answer.status = REFUSED;
    }
    Ok(answer)
}
