//! Where the nodes of a printed sheet start.

use crate::calls;
use crate::input::Input;
use crate::records::Place;
use crate::refusal::Refusal;

impl Input<'_> {
    /// The place of the printed sheet, its margin included, where each node starts, by its number: the first line and the first column that it or a node below it has. None where there
    /// are no such, as for a leaf of width 0 in a sheet without lines. Every place of the sheet is looked up.
    ///
    /// ```
    /// use leg_sheet::{Input, Place, Settings, Tree};
    ///
    /// let (settings, tree) = (Settings::default().to_bytes(), Tree::row(["1", "Home pad"]).to_bytes()?);
    /// let starts = Input { settings: &settings, tree: &tree }.starts()?;
    /// assert_eq!(starts, [(0, 0), (0, 0), (0, 4)].map(|(line, column)| Some(Place { line, column })));
    /// # Ok::<(), leg_sheet::Refusal>(())
    /// ```
    ///
    /// # Errors
    /// As [`print_sheet`](Input::print_sheet).
    pub fn starts(self) -> Result<Vec<Option<Place>>, Refusal> {
        let sizes = self.sizes()?;
        let mut starts = vec![None; sizes.len()];
        for list in self.inside()?.chunks(calls::PLACES) {
            let marked = self.places(list)?;
            for (place, leaf) in list.iter().zip(marked.answers) {
                starts[leaf.node] = Some(Place {
                    line: place.line - leaf.line,
                    column: place.column - leaf.column,
                });
            }
        }
        // A node is behind those that it is inside, and all below it are behind it: from the last one on each is looked at once it has its own start.
        for node in (0..sizes.len()).rev() {
            let below = node + 1..=node + usize::from(sizes[node].below);
            let first = below.filter_map(|node| starts[node]).reduce(first);
            starts[node] = starts[node].or(first);
        }
        Ok(starts)
    }

    /// The places of the printed sheet inside its margin.
    fn inside(self) -> Result<Vec<Place>, Refusal> {
        let mut margin = [0; calls::MARGIN];
        calls::read_margin(self.settings, &mut margin)?;
        let [left, right, top, bottom, ..] = margin.map(usize::from);
        let sheet = self.print_sheet()?;
        let lines: Vec<&str> = sheet.split('\n').collect();
        let columns = left..lines[0].len() - right;
        let lines = top..lines.len() - bottom;
        Ok(lines
            .flat_map(|line| columns.clone().map(move |column| Place { line, column }))
            .collect())
    }
}

/// The first line and the first column of two places.
fn first(one: Place, other: Place) -> Place {
    Place {
        line: one.line.min(other.line),
        column: one.column.min(other.column),
    }
}
