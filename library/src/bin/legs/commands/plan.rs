use std::ops::RangeInclusive;

use leg_sheet::{calls, Plan, Planned, TypedFault};

use super::{Answer, Command};
use crate::fault::Fault;
use crate::file::File;
use crate::given::Given;
use crate::options::{JSON, TSV};
use crate::shown::{shown, Mistake};
use crate::table::Table;

pub const COMMAND: Command = Command {
    name: "plan",
    operands: &["FILE"],
    options: &[TSV, JSON],
    takes_settings: true,
    about: "the least and the greatest size of the sheet of a list in which a line like ? 2-6 x 1-3 is a placeholder for a text not known yet",
    run,
};

fn run(given: &Given) -> Result<Answer, Fault> {
    let file = with_ranges(given.file()?)?;
    let planned = file.call(|input| input.plan())?;
    Ok(Answer::one(given, &table(&planned), || lines(&planned)))
}

/// The file with the planning tree of its list; bytes are one as they are.
fn with_ranges(file: File) -> Result<File, Fault> {
    let Some(list) = file.list() else {
        return Ok(file);
    };
    let mistake = |fault: TypedFault| {
        Mistake {
        words: format!(
            "a range is typed as ? 2-6 x 1-3: the least and the greatest width, 0 to 255, and the least and the greatest count of lines, 1 to 255; {}",
            "a text that begins with ? has a quote mark in front"
        ),
        ..fault.into()
    }
    };
    let plan = Plan::from_typed(list);
    let plan = plan.map_err(|fault| Fault::Mistake(shown(&file.name, list, &mistake(fault))))?;
    let tree = file.refuse(plan.to_bytes())?;
    Ok(file.with_tree(tree))
}

/// Whether the sheet can be printed with any texts, with some, or with none.
fn fits(Planned { width, height }: &Planned) -> &'static str {
    let fits = |w: &usize, h: &usize| *w <= calls::WIDTH && *h <= calls::HEIGHT;
    if fits(width.end(), height.end()) {
        "any"
    } else if fits(width.start(), height.start()) {
        "some"
    } else {
        "none"
    }
}

fn table(planned: &Planned) -> Table<5> {
    let Planned { width, height } = planned;
    Table::one([
        ("least_columns", (*width.start()).into()),
        ("greatest_columns", (*width.end()).into()),
        ("least_lines", (*height.start()).into()),
        ("greatest_lines", (*height.end()).into()),
        ("fits", fits(planned).into()),
    ])
}

fn lines(planned: &Planned) -> String {
    let (width, height) = (ends(&planned.width), ends(&planned.height));
    let which = match fits(planned) {
        "any" => return format!("columns: {width}\nlines: {height}\n"),
        "some" => "some",
        _ => "any",
    };
    let limits = format!(
        "a sheet has up to {} columns and {} lines",
        calls::WIDTH,
        calls::HEIGHT
    );
    format!("columns: {width}\nlines: {height}\ntoo large with {which} texts: {limits}\n")
}

/// The least and the greatest, or one number where they are equal.
fn ends(range: &RangeInclusive<usize>) -> String {
    let (least, greatest) = (range.start(), range.end());
    if least == greatest {
        return least.to_string();
    }
    format!("{least} to {greatest}")
}
