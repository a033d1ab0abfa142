//! What was measured of a table, as a row of docs/PERFORMANCE.md, and the bars.

use std::fmt;

/// Nanoseconds of a sheet: the library's, A's, B's, the original's.
pub struct Measured {
    pub name: String,
    pub nodes: usize,
    pub bytes: usize,
    pub library: f64,
    pub a: f64,
    pub b: f64,
    pub original: f64,
}

impl Measured {
    pub const HEAD: &'static str = "\
| shape | nodes | bytes | library | A | B | original | faster | by A | by B | ns a node | ns a byte |
|---|---|---|---|---|---|---|---|---|---|---|---|";

    /// This many times faster than the original.
    fn faster(&self) -> f64 {
        self.original / self.library
    }

    fn by_a(&self) -> f64 {
        self.library / self.a
    }
}

impl fmt::Display for Measured {
    fn fmt(&self, f: &mut fmt::Formatter) -> fmt::Result {
        let Measured {
            name,
            nodes,
            bytes,
            library,
            a,
            b,
            original,
        } = self;
        write!(
            f,
            "| {name} | {nodes} | {bytes} | {library:.0} | {a:.0} | {b:.0} | {original:.0} "
        )?;
        write!(
            f,
            "| {:.1} | {:.2} | {:.2} ",
            self.faster(),
            self.by_a(),
            library / b
        )?;
        write!(
            f,
            "| {:.1} | {:.2} |",
            library / *nodes as f64,
            library / *bytes as f64
        )
    }
}

/// A number that may not be passed: from below, or from above.
pub struct Bar {
    what: String,
    found: f64,
    least: f64,
    most: f64,
}

impl Bar {
    pub fn is_met(&self) -> bool {
        self.least <= self.found && self.found <= self.most
    }
}

impl fmt::Display for Bar {
    fn fmt(&self, f: &mut fmt::Formatter) -> fmt::Result {
        let Bar {
            what,
            found,
            least,
            most,
        } = self;
        let missed = if self.is_met() { "" } else { ": MISSED" };
        if *least > 0.0 {
            write!(f, "{what}: {found:.2}, at least {least}{missed}")
        } else {
            write!(f, "{what}: {found:.2}, at most {most}{missed}")
        }
    }
}

pub fn bars(all: &[Measured]) -> [Bar; 4] {
    let large = || all.iter().filter(|m| m.nodes >= 100);
    let slowest = large().min_by(|m, n| m.faster().total_cmp(&n.faster()));
    let farthest = large().max_by(|m, n| m.by_a().total_cmp(&n.by_a()));
    let (slowest, farthest) = (slowest.expect("a table"), farthest.expect("a table"));
    let by_a = |m: &Measured, most| Bar {
        what: format!("{}, by A", m.name),
        found: m.by_a(),
        least: 0.0,
        most,
    };
    let named = |name: &str| all.iter().find(|m| m.name == name).expect("a table's name");
    [
        Bar {
            what: format!(
                "least of 100 nodes and more, {}, faster than the original (goal 20)",
                slowest.name
            ),
            found: slowest.faster(),
            least: 11.0,
            most: f64::MAX,
        },
        Bar {
            what: format!("most of 100 nodes and more, {}, by A", farthest.name),
            ..by_a(farthest, 1.6)
        },
        by_a(named("text, 396 by 80"), 1.25),
        by_a(named("Row, 10 Cells"), 1.4),
    ]
}
