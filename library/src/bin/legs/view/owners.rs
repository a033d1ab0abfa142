//! The leaf of each place of a sheet.

use leg_sheet::{calls, Input, Place, Refusal, Settings};

/// A rectangle of the sheet, by the places of its corners.
#[derive(Clone, Copy, PartialEq)]
pub struct Area {
    pub first: Place,
    pub last: Place,
}

impl Area {
    fn of(place: Place) -> Area {
        Area {
            first: place,
            last: place,
        }
    }

    /// The least one that has both.
    pub fn with(self, other: Area) -> Area {
        let both = |pick: fn(usize, usize) -> usize, one: Place, two: Place| Place {
            line: pick(one.line, two.line),
            column: pick(one.column, two.column),
        };
        Area {
            first: both(usize::min, self.first, other.first),
            last: both(usize::max, self.last, other.last),
        }
    }
}

/// A place where the side of a leaf meets the middle of another one, whose number this is.
#[derive(PartialEq)]
pub struct Crossing {
    pub place: Place,
    pub node: usize,
}

#[derive(PartialEq)]
pub struct Owners {
    /// For each line of the sheet the leaf of each column, and none in the margin.
    pub lines: Vec<Vec<Option<usize>>>,
    /// The area of each leaf; none of a node that has no place of its own.
    pub areas: Vec<Option<Area>>,
}

impl Owners {
    /// Looks up every place inside the margin, as many at once as the call takes.
    pub fn of(input: Input, lines: usize, columns: usize, nodes: usize) -> Result<Owners, Refusal> {
        let mut owners = Owners {
            lines: vec![vec![None; columns]; lines],
            areas: vec![None; nodes],
        };
        let margin = Settings::from_bytes(input.settings)?.margin();
        let [left, right, top, bottom] =
            [margin.left, margin.right, margin.top, margin.bottom].map(usize::from);
        let inside = (top..lines - bottom)
            .flat_map(|line| (left..columns - right).map(move |column| Place { line, column }));
        for places in inside.collect::<Vec<_>>().chunks(calls::PLACES) {
            let leaves = input.places(places)?.answers;
            let each = places.iter().zip(leaves);
            each.for_each(|(place, leaf)| owners.put(*place, leaf.node));
        }
        Ok(owners)
    }

    fn put(&mut self, place: Place, node: usize) {
        let one = Area::of(place);
        self.lines[place.line][place.column] = Some(node);
        self.areas[node] = Some(self.areas[node].map_or(one, |area| area.with(one)));
    }

    fn at(&self, place: Place) -> Option<usize> {
        *self.lines.get(place.line)?.get(place.column)?
    }

    /// At the upper end of an area's right side, where that is under the middle of a leaf.
    pub fn above(&self, Area { first, last }: Area) -> Option<Crossing> {
        let column = last.column + 1;
        let line = first.line;
        self.crossing(
            Place { line, column },
            Place {
                line: line.checked_sub(1)?,
                column,
            },
        )
    }

    /// At the left end of its lower side, where that is right of the middle of a leaf.
    pub fn beside(&self, Area { first, last }: Area) -> Option<Crossing> {
        let column = first.column;
        let line = last.line + 1;
        self.crossing(
            Place { line, column },
            Place {
                line,
                column: column.checked_sub(1)?,
            },
        )
    }

    /// The crossing at a place inside the sheet: the leaf of the place before it, above or on the left, begins both above it and left of it.
    fn crossing(&self, place: Place, before: Place) -> Option<Crossing> {
        self.at(place)?;
        let node = self.at(before)?;
        let begin = self.areas[node]?.first;
        let is_middle = begin.line < place.line && begin.column < place.column;
        is_middle.then_some(Crossing { place, node })
    }
}
