use leg_sheet::{calls, Input, Refusal, Settings};

use super::{Answer, Command};
use crate::fault::Fault;
use crate::file::{words, File};
use crate::given::Given;
use crate::mistakes;
use crate::over::Over;
use crate::shown::{shown, Mistake};
use crate::source::Source;

pub const COMMAND: Command = Command {
    name: "check",
    operands: &["FILE"],
    options: &[],
    takes_settings: true,
    about: "whether the settings, the tree and the sheet are accepted, and if not, why; all mistakes of a typed list",
    run,
};

fn run(given: &Given) -> Result<Answer, Fault> {
    let source = given.source()?;
    if source.is_text() {
        let (mistakes, is_all) = mistakes::all(&source.bytes);
        if !mistakes.is_empty() {
            return Ok(Answer::refused(list(&source, &mistakes, is_all)));
        }
    }
    let file = File::of(source, &Over::of(given)?)?;
    let input = file.input();
    let settings = Settings::from_bytes(input.settings).map(|_| String::new());
    let tree = calls::read_tree(input.tree).map(|nodes| format!(", nodes: {nodes}"));
    let sheet = input.print_sheet().map(|sheet| dimensions(&sheet));
    let parts = [("settings", settings), ("tree", tree), ("sheet", sheet)];
    let text = parts.iter().map(|part| line(input, part)).collect();
    if parts.iter().any(|(_, verdict)| verdict.is_err()) {
        return Ok(Answer::refused(text));
    }
    Ok(Answer::accepted(text))
}

/// A sheet of no columns is line feeds alone, and has a line more.
fn dimensions(sheet: &str) -> String {
    let lines: Vec<&str> = sheet.split('\n').collect();
    format!(", {} columns by {} lines", lines[0].len(), lines.len())
}

fn line(input: Input, (part, verdict): &(&str, Result<String, Refusal>)) -> String {
    match *verdict {
        Ok(ref more) => format!("{part}: accepted{more}\n"),
        Err(refusal) => {
            let (number, words) = (refusal.number(), words(input, refusal));
            format!("{part}: refused {number}: {words}\n")
        }
    }
}

/// The mistakes of a typed list, and how far it was read.
fn list(source: &Source, mistakes: &[Mistake], is_all: bool) -> String {
    let shown = |mistake: &Mistake| shown(&source.name, &source.bytes, mistake) + "\n";
    let mut text: String = mistakes.iter().map(shown).collect();
    let count = match mistakes.len() {
        1 => "1 mistake".into(),
        count => format!("{count} mistakes"),
    };
    let rest = if is_all {
        ""
    } else {
        "; what follows the last one was not checked"
    };
    text += &format!("{count}{rest}\n");
    text
}
