//! Answers as records with named fields: for people, as TSV, or as JSON.

use std::fmt::Write;

use crate::given::Given;
use crate::options::{JSON, TSV};
use crate::texts::{beginning, on_one_line};

/// A field of a record.
pub enum Field {
    Number(usize),
    Text(String),
    Numbers(Vec<usize>),
    Texts(Vec<String>),
    /// Where there is nothing to say.
    None,
}

/// Records of the same fields. Their names have no spaces.
pub struct Table<const N: usize> {
    pub names: [&'static str; N],
    pub rows: Vec<[Field; N]>,
}

/// The form in which an answer is requested.
#[derive(Clone, Copy, PartialEq, Eq)]
pub enum Format {
    People,
    Tsv,
    Json,
}

impl Format {
    pub fn of(given: &Given) -> Format {
        if given.has(JSON.name) {
            Format::Json
        } else if given.has(TSV.name) {
            Format::Tsv
        } else {
            Format::People
        }
    }
}

impl From<usize> for Field {
    fn from(number: usize) -> Field {
        Field::Number(number)
    }
}

impl From<u16> for Field {
    fn from(number: u16) -> Field {
        Field::Number(number.into())
    }
}

impl From<&str> for Field {
    fn from(text: &str) -> Field {
        Field::Text(text.into())
    }
}

impl<T: Into<Field>> From<Option<T>> for Field {
    fn from(field: Option<T>) -> Field {
        field.map_or(Field::None, Into::into)
    }
}

impl Field {
    /// As it is shown in a line for people: of a text its beginning.
    fn shown(&self) -> String {
        match self {
            Field::Text(text) => beginning(text),
            _ => self.tsv(),
        }
    }

    /// In one line without a tab.
    fn tsv(&self) -> String {
        match self {
            Field::Number(number) => number.to_string(),
            Field::Text(text) => on_one_line(text),
            Field::Numbers(numbers) => {
                let numbers: Vec<String> = numbers.iter().map(usize::to_string).collect();
                numbers.join(" ")
            }
            Field::Texts(texts) => texts.join(" "),
            Field::None => String::new(),
        }
    }

    fn json(&self) -> String {
        match self {
            Field::Number(number) => number.to_string(),
            Field::Text(text) => quoted(text),
            Field::Numbers(numbers) => {
                let numbers: Vec<String> = numbers.iter().map(usize::to_string).collect();
                format!("[{}]", numbers.join(", "))
            }
            Field::Texts(texts) => {
                let texts: Vec<String> = texts.iter().map(|text| quoted(text)).collect();
                format!("[{}]", texts.join(", "))
            }
            Field::None => "null".into(),
        }
    }

    fn is_number(&self) -> bool {
        matches!(self, Field::Number(_))
    }
}

impl<const N: usize> Table<N> {
    /// One record.
    pub fn one(fields: [(&'static str, Field); N]) -> Table<N> {
        let names = std::array::from_fn(|at| fields[at].0);
        let rows = vec![fields.map(|(_, field)| field)];
        Table { names, rows }
    }

    /// In columns with their names above: numbers are aligned right, all else left.
    pub fn columns(&self) -> String {
        let names = self.names.map(|name| name.replace('_', " "));
        let rows: Vec<[String; N]> = (self.rows.iter())
            .map(|row| row.each_ref().map(Field::shown))
            .collect();
        let all = || std::iter::once(&names).chain(&rows);
        let width = |at: usize| all().map(|row| row[at].chars().count()).max();
        let is_right = |at: usize| self.rows.iter().any(|row| row[at].is_number());
        let mut text = String::new();
        for row in all() {
            let mut line = String::new();
            for (at, field) in row.iter().enumerate() {
                let space = " ".repeat(width(at).unwrap_or(0) - field.chars().count());
                let gap = if at == 0 { "" } else { "  " };
                if is_right(at) {
                    line += &format!("{gap}{space}{field}");
                } else {
                    line += &format!("{gap}{field}{space}");
                }
            }
            text += line.trim_end();
            text.push('\n');
        }
        text
    }

    /// A line for the names and one for each record, the fields separated by tabs. In a text a line feed is `\n` and a backslash `\\`, as they are typed.
    pub fn tsv(&self) -> String {
        let mut text = self.names.join("\t") + "\n";
        for row in &self.rows {
            text += &row.each_ref().map(Field::tsv).join("\t");
            text.push('\n');
        }
        text
    }

    /// An array of objects.
    pub fn json(&self) -> String {
        let rows: Vec<String> = self.rows.iter().map(|row| self.object(row)).collect();
        format!("[{}]\n", rows.join(",\n "))
    }

    /// The object of the first record, which is the only one.
    pub fn json_one(&self) -> String {
        self.rows
            .first()
            .map_or(String::new(), |row| self.object(row) + "\n")
    }

    fn object(&self, row: &[Field; N]) -> String {
        let field = |(name, field): (&&str, &Field)| format!("\"{name}\": {}", field.json());
        let fields: Vec<String> = self.names.iter().zip(row).map(field).collect();
        format!("{{{}}}", fields.join(", "))
    }
}

/// A text as JSON has it.
fn quoted(text: &str) -> String {
    let mut out = String::from('"');
    for it in text.chars() {
        match it {
            '"' | '\\' => out.extend(['\\', it]),
            '\n' => out += "\\n",
            it if it.is_control() => {
                let _ = write!(out, "\\u{:04x}", u32::from(it));
            }
            it => out.push(it),
        }
    }
    out.push('"');
    out
}
