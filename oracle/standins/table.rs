//! Stand-in for `Table`, as far as `table_pool.rs` uses it: `builder.build()`, `with(Style::empty())`, `with(Padding::zero())`, `to_string()`.
//! It assumes (document 01: 'a sheet printer that lays blocks side by side'): the texts of a record are side by side, line by line;
//! the records are one under another; lines are joined by 0A, none at the end.
//! A text that is narrower than its column or lower than its record is filled with spaces on the right and below (FAITHFUL.md, 'How Table joins');
//! `uneven` counts the joins where this happened.

use std::cell::Cell;
use std::fmt;

use crate::{
    builder::Builder,
    grid::{
        config::{Borders, CompactConfig},
        records::vec_records::Text,
        util::string::{count_lines, get_line_width, get_lines, get_text_width},
    },
    settings::TableOption,
};

thread_local! {
    static UNEVEN: Cell<usize> = const { Cell::new(0) };
}

/// How many joins had texts of unequal height in a record or of unequal width in a column, since the last call.
pub fn uneven() -> usize {
    UNEVEN.with(|count| count.replace(0))
}

#[derive(Debug, Clone)]
pub struct Table {
    records: Vec<Vec<Text<String>>>,
    config: CompactConfig,
}

impl From<Builder> for Table {
    fn from(builder: Builder) -> Self {
        Self {
            records: builder.into(),
            config: CompactConfig::new(),
        }
    }
}

impl Table {
    pub fn with<O>(&mut self, option: O) -> &mut Self
    where
        O: TableOption<(), CompactConfig, ()>,
    {
        option.change(&mut (), &mut self.config, &mut ());
        self
    }
}

impl fmt::Display for Table {
    fn fmt(&self, f: &mut fmt::Formatter<'_>) -> fmt::Result {
        let pad = self.config.get_padding();
        assert!(
            *self.config.get_borders() == Borders::empty()
                && [pad.left, pad.right, pad.top, pad.bottom]
                    .iter()
                    .all(|indent| indent.size == 0),
            "the stand-in joins without marks and padding only"
        );

        let count = self.records.first().map_or(0, Vec::len);
        let widths: Vec<usize> = (0..count)
            .map(|at| {
                let texts = self.records.iter().map(|record| record[at].as_ref());
                texts.map(get_text_width).max().unwrap_or(0)
            })
            .collect();

        let mut lines = Vec::new();
        let mut is_even = true;
        for record in &self.records {
            let heights = record.iter().map(|text| count_lines(text.as_ref()));
            let height = heights.max().unwrap_or(0);
            let first = lines.len();
            lines.resize(first + height, String::new());

            for (text, &width) in record.iter().zip(&widths) {
                let text = text.as_ref();
                is_even &= count_lines(text) == height;

                let mut texts = get_lines(text);
                for line in &mut lines[first..] {
                    let part = texts.next().unwrap_or_default();
                    let rest = width - get_line_width(&part);
                    is_even &= rest == 0;
                    line.push_str(&part);
                    line.extend(std::iter::repeat_n(' ', rest));
                }
            }
        }

        if !is_even {
            UNEVEN.with(|count| count.set(count.get() + 1));
        }

        f.write_str(&lines.join("\n"))
    }
}
