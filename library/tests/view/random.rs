//! Random sheets: nested trees with odd texts and without, with a margin and without, with lines and without.

use leg_sheet::{Marks, Priority, Settings, Sides, Tree};

/// The numbers of Knuth's MMIX generator; only their upper bits are used.
pub struct Random(pub u64);

impl Random {
    /// One of 0 to below the limit.
    pub fn below(&mut self, limit: usize) -> usize {
        let next = self.0.wrapping_mul(6_364_136_223_846_793_005);
        self.0 = next.wrapping_add(1_442_695_040_888_963_407);
        (self.0 >> 33) as usize % limit
    }

    fn pick<T: Copy>(&mut self, items: &[T]) -> T {
        items[self.below(items.len())]
    }

    /// Empty, short or of some lines, and often such as mean something in HTML, JSON or typed lists.
    fn text(&mut self) -> String {
        let parts = [
            "",
            "a",
            "bc",
            "12 m/s",
            "\n",
            "<!--",
            "</script>",
            "&amp;",
            "\\n",
            "\"",
            "'",
        ];
        (0..self.below(4)).map(|_| self.pick(&parts)).collect()
    }

    /// A tree of no more levels than these.
    pub fn tree(&mut self, levels: usize) -> Tree {
        let group = match self.below(3) {
            _ if levels == 1 => return self.text().into(),
            0 => return self.text().into(),
            1 => Tree::Row,
            _ => Tree::Column,
        };
        let count = self.below(5);
        group((0..count).map(|_| self.tree(levels - 1)).collect())
    }

    fn sides(&mut self, limit: usize) -> Sides {
        let mut side = || self.below(limit) as u8;
        let (left, right, top, bottom) = (side(), side(), side(), side());
        Sides {
            left,
            right,
            top,
            bottom,
        }
    }

    pub fn settings(&mut self) -> Settings {
        let marks = self.pick(&[
            Marks::All(*b"--||-|+++++++++"),
            Marks::All(*b"<>&\"'v123456789"),
            Marks::None,
        ]);
        let priorities = [Priority::First, Priority::Last, Priority::List];
        let margin = self.pick(&[1, 1, 4]);
        let settings = Settings::default().with_marks(marks);
        let settings = settings.and_then(|settings| settings.with_padding(self.sides(2)));
        let settings = settings.and_then(|settings| settings.with_margin(self.sides(margin)));
        (settings.expect("in range"))
            .with_width_priority(self.pick(&priorities))
            .with_height_priority(self.pick(&priorities))
    }
}
