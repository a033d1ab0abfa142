use std::ffi::OsStr;

use leg_sheet::{typed_lines, LineKind, Settings, Tree, TypedLine};

use super::{typing, Answer, Command};
use crate::fault::Fault;
use crate::file::File;
use crate::given::{number, Given};
use crate::options::{ALL, FORCE, LINES, TYPED};
use crate::shown::{shown, Mistake};

pub const COMMAND: Command = Command {
    name: "blank",
    operands: &["FILE", "[NODE..]"],
    options: &[LINES, ALL, TYPED, FORCE],
    takes_settings: true,
    about: "the question paper of a key, as bytes: its settings, and its tree with the texts of these Cells blanked with dots",
    run,
};

/// The settings are read, too: without them it is not known where the tree begins.
fn run(given: &Given) -> Result<Answer, Fault> {
    let nodes = given.operands[1..].iter().map(|word| number(word));
    let mut nodes = nodes.collect::<Result<Vec<usize>, Fault>>()?;
    let lines = given.value(LINES.name).map_or(Ok(Vec::new()), numbers)?;
    if given.has(ALL.name) != (nodes.is_empty() && lines.is_empty()) {
        let which = "say which texts to blank: by NODE.., by --lines LINE,LINE.., or --all alone";
        return Err(Fault::Usage(which.into()));
    }
    let file = given.file()?;
    file.call(|input| Settings::from_bytes(input.settings))?;
    nodes.extend(nodes_of(&file, &lines)?);
    let tree = file.call(|input| input.blank(&nodes))?;
    if given.has(TYPED.name) {
        let tree = file.refuse(Tree::from_bytes(&tree))?;
        return typing::typed(&file.name, &tree).map(Answer::accepted);
    }
    Answer::bytes(given, [file.input().settings, &tree].concat())
}

/// Numbers separated by commas.
fn numbers(list: &OsStr) -> Result<Vec<usize>, Fault> {
    let text = list.to_string_lossy();
    let numbers = text.split(',').map(|word| number(OsStr::new(word.trim())));
    numbers.collect()
}

/// The nodes of lines of the typed list.
fn nodes_of(file: &File, lines: &[usize]) -> Result<Vec<usize>, Fault> {
    if lines.is_empty() {
        return Ok(Vec::new());
    }
    let Some(list) = file.list() else {
        let words = format!(
            "--lines are lines of a typed list, and {} is not one",
            file.name
        );
        return Err(Fault::Usage(words));
    };
    let nodes: Vec<TypedLine> = typed_lines(list).filter(TypedLine::is_node).collect();
    let node = |&number: &usize| {
        let node = nodes.iter().position(|line| line.number == number);
        let is_text = |&node: &usize| nodes[node].kind() == LineKind::Text;
        node.filter(is_text)
            .ok_or_else(|| no_text(file, list, number))
    };
    lines.iter().map(node).collect()
}

/// What is said of a line that has no text.
fn no_text(file: &File, list: &[u8], number: usize) -> Fault {
    let mut lines = typed_lines(list);
    let Some(line) = lines.find(|line| line.number == number) else {
        return Fault::Usage(format!("{} has no line {number}", file.name));
    };
    let kind = match line.kind() {
        LineKind::Blank => "a blank line",
        LineKind::Comment => "a comment",
        LineKind::Row => "a row",
        _ => "a column",
    };
    let mistake = Mistake {
        line: number,
        column: line.spaces + 1,
        words: format!("this is {kind}, and only texts are blanked"),
    };
    Fault::Mistake(shown(&file.name, list, &mistake))
}
