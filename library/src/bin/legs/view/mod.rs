//! The page that `legs view` writes: one file with all that it shows, which loads nothing and sends nothing.

mod data;
mod escape;
mod json;
mod owners;
mod paper;
mod policy;
mod sha256;

use std::path::Path;

use data::{Layout, Texts};
use escape::html;

use crate::fault::Fault;
use crate::file::File;

const STYLE: &str = include_str!("page.css");

/// In the order in which they run, as one script.
const SCRIPT: &str = concat!(
    include_str!("lookup.js"),
    include_str!("sheet.js"),
    include_str!("outline.js"),
    include_str!("marker.js"),
    include_str!("page.js"),
);

/// The page of a sheet, or of a key and its question paper.
pub fn page(key: &File, paper: Option<&File>) -> Result<String, Fault> {
    let layout = key.call(Layout::of)?;
    let mut sheets = vec![texts(key)?];
    if let Some(paper) = paper {
        let has_same_settings = key.input().settings == paper.input().settings;
        let other = paper.call(Layout::of)?;
        if let Some(why) = layout.difference(&other, has_same_settings) {
            return Err(Fault::Unlike(paper.name.clone(), key.name.clone(), why));
        }
        sheets.push(texts(paper)?);
    }
    Ok(written(&layout, &sheets))
}

/// The texts of a file, under its name without its folders.
fn texts(file: &File) -> Result<Texts, Fault> {
    let name = Path::new(&file.name).file_name();
    let name = name.map_or(file.name.clone(), |name| name.to_string_lossy().into());
    file.call(|input| Texts::of(name.clone(), input))
}

fn written(layout: &Layout, sheets: &[Texts]) -> String {
    let style = paper::style(layout.lines, layout.columns) + STYLE;
    format!(
        include_str!("page.html"),
        policy = html(&policy::policy(SCRIPT, &style)),
        name = html(&sheets[0].name),
        style = style,
        lines = layout.lines,
        columns = layout.columns,
        over = over(layout.columns),
        along = along(layout.lines),
        sheet = html(&sheets[0].sheet),
        data = json::data(layout, sheets),
        script = SCRIPT,
    )
}

/// The ruler over a sheet: a number at every tenth column that has room for it, and the last digit of each.
fn over(columns: usize) -> String {
    let mut tens = String::new();
    for column in (0..columns).step_by(10) {
        let number = column.to_string();
        let room = columns.min(column + 10) - column;
        let shown = if number.len() > room { "" } else { &number };
        tens += &format!("{shown:room$}");
    }
    let digits: String = (0..columns)
        .map(|column| (column % 10).to_string())
        .collect();
    format!("{tens}\n{digits}")
}

/// The ruler along its left side.
fn along(lines: usize) -> String {
    let numbers: Vec<String> = (0..lines).map(|line| line.to_string()).collect();
    numbers.join("\n")
}
