//! The parts without lines (document 02, 13): the inputs of the others, or some of them, under settings whose marks are fifteen zeros.

use super::{Comparison, Difference, Part};
use crate::form::{encode_settings, Margin, Settings};
use crate::gen;

pub const PARTS: [Part; 17] = [
    ("marks and zeros", |c, _, _| c.mixtures()),
    ("without lines: all trees of up to 5 nodes", |c, _, _| {
        c.small_tables(5, &gen::bare_settings()[1..4])
    }),
    (
        "without lines: all trees of up to 3 nodes, all choices",
        |c, _, _| {
            let choices: Vec<Settings> = gen::choices().into_iter().map(Settings::bare).collect();
            c.small_tables(3, &choices)
        },
    ),
    ("without lines: two groups", |c, _, _| {
        c.two_groups(&gen::bare_settings()[1..4])
    }),
    ("without lines: limits", |c, rng, rounds| {
        c.limits(&mut rng.bare(), rounds)
    }),
    ("without lines: tables", |c, rng, rounds| {
        c.tables(&mut rng.bare(), 100 * rounds)
    }),
    ("without lines: damaged bytes", |c, rng, rounds| {
        c.cases(&mut rng.bare(), 1000 * rounds)
    }),
    (
        "without lines: places of all trees of up to 4 nodes",
        |c, _, _| c.small_places(4, &gen::bare_settings()),
    ),
    ("without lines: places of two groups", |c, _, _| {
        c.two_groups_places(&gen::bare_settings()[1..2])
    }),
    ("without lines: places of tables", |c, rng, rounds| {
        c.tables_places(&mut rng.bare(), 10 * rounds)
    }),
    (
        "without lines: folds of all lists of up to 3 cells",
        |c, _, _| c.small_folds(3, &gen::bare_settings()),
    ),
    ("without lines: folds of lists", |c, rng, rounds| {
        c.folds(&mut rng.bare(), 10 * rounds)?;
        c.any_folds(&mut rng.bare(), 100 * rounds)
    }),
    (
        "without lines: plans of all trees of up to 3 nodes",
        |c, _, _| c.small_plans(3, &gen::bare_settings()),
    ),
    ("without lines: plans", |c, rng, rounds| {
        c.plans(&mut rng.bare(), 30 * rounds)?;
        c.any_plans(&mut rng.bare(), 100 * rounds)
    }),
    (
        "without lines: letters of all trees of up to 4 nodes",
        |c, _, _| c.small_needs(4, &gen::bare_settings()),
    ),
    ("without lines: letters of tables", |c, rng, rounds| {
        c.needs(&mut rng.bare(), 10 * rounds)
    }),
    (
        "without lines: letters of damaged bytes",
        |c, rng, rounds| c.any_needs(&mut rng.bare(), 100 * rounds),
    ),
];

impl Comparison<'_> {
    /// Every choice of which of the fifteen marks are zeros; then fifteen zeros, with a margin and without, with every byte at every place.
    pub fn mixtures(&mut self) -> Result<(), Difference> {
        for zeros in 0..1u16 << 15 {
            let mut settings = Settings::M;
            for (at, mark) in settings.marks.iter_mut().enumerate() {
                if zeros >> at & 1 == 1 {
                    *mark = 0;
                }
            }
            self.settings(&encode_settings(&settings))?;
        }
        let edged = Settings {
            margin: Margin {
                sizes: [1, 2, 1, 1],
                fills: *b"lrtb",
            },
            ..Settings::N
        };
        self.every_byte(&encode_settings(&Settings::N))?;
        self.every_byte(&encode_settings(&edged))
    }
}
