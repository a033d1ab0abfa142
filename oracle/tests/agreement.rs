//! The crate against documents 01 and 02, and what the oracle itself rests on. `oracle agree` does more of the first.

mod faulty;

use faulty::{blanks, lines, typed};
use oracle::calls::{
    Calls, Counted, CutParts, CutPositions, Folded, LeafPlace, LeafRecord, Marked, Planned,
    ReadMargin, ReadSettings, Shared, SizeRecord, SplitList, Typed,
};
use oracle::compare::{Comparison, Difference, NUMBERS};
use oracle::gen::{self, Margins, Rng};
use oracle::sides::{Original, Paper};
use oracle::{
    encode_tree, folding, judge, original, paper, planning, widening, CutPair, Ends, Fold, Margin,
    Owner, Plan, Range, Settings, Tree,
};

fn agree(run: impl Fn(&mut Comparison) -> Result<(), Difference>) {
    let (mut one, mut other) = (Original::default(), Paper::default());
    let mut comparison = Comparison::new(&mut one, &mut other);
    if let Err(difference) = run(&mut comparison) {
        panic!("{difference}");
    }
}

#[test]
fn settings_records() {
    agree(|comparison| comparison.settings_records());
}

#[test]
fn small_tables() {
    agree(|comparison| comparison.small_tables(4, &gen::few_settings()));
    agree(|comparison| comparison.small_tables(5, &gen::few_settings()[2..4]));
}

#[test]
fn two_groups() {
    agree(|comparison| comparison.two_groups(&gen::few_settings()[3..6]));
}

#[test]
fn every_choice() {
    agree(|comparison| comparison.small_tables(3, &gen::choices()));
}

#[test]
fn tables() {
    agree(|comparison| comparison.tables(&mut Rng::new(11), 150));
}

#[test]
fn limits() {
    agree(|comparison| comparison.limits(&mut Rng::new(12), 3));
}

#[test]
fn cases() {
    agree(|comparison| comparison.cases(&mut Rng::new(13), 1500));
}

#[test]
fn places() {
    agree(|comparison| comparison.small_places(4, &gen::few_settings()));
    agree(|comparison| comparison.two_groups_places(&gen::few_settings()[4..6]));
    agree(|comparison| comparison.tables_places(&mut Rng::new(22), 60));
}

#[test]
fn folds() {
    agree(|comparison| comparison.small_folds(3, &gen::few_settings()));
    agree(|comparison| comparison.folds(&mut Rng::new(24), 60));
    agree(|comparison| comparison.any_folds(&mut Rng::new(25), 400));
}

#[test]
fn plans() {
    agree(|comparison| comparison.faulty_plans(5));
    agree(|comparison| comparison.small_plans(3, &gen::few_settings()));
    agree(|comparison| comparison.small_plans(4, &gen::few_settings()[3..4]));
    agree(|comparison| comparison.plans(&mut Rng::new(26), 200));
    agree(|comparison| comparison.any_plans(&mut Rng::new(27), 400));
}

#[test]
fn letters() {
    agree(|comparison| comparison.small_needs(4, &gen::few_settings()));
    agree(|comparison| comparison.needs(&mut Rng::new(28), 60));
    agree(|comparison| comparison.any_needs(&mut Rng::new(29), 400));
}

#[test]
fn drafts() {
    agree(|comparison| comparison.small_stores(3, 2));
    agree(|comparison| comparison.series(&mut Rng::new(30), 20));
    agree(|comparison| comparison.any_stores(&mut Rng::new(31), 400));
}

#[test]
fn blanked() {
    agree(|comparison| comparison.small_blanks(4));
    agree(|comparison| comparison.blanks(&mut Rng::new(32), 100));
    agree(|comparison| comparison.any_blanks(&mut Rng::new(33), 400));
}

#[test]
fn typed_lists() {
    agree(|comparison| comparison.short_typed(4, 3));
    agree(|comparison| comparison.typed_trees(&mut Rng::new(38), 1000));
    agree(|comparison| comparison.any_typed(&mut Rng::new(39), 5000));
    agree(|comparison| comparison.typed_limits(&mut Rng::new(40), 1));
}

/// Alike trees (document 02, 14), with lines and without.
#[test]
fn alike() {
    let (few, bare) = (gen::few_settings(), gen::bare_settings());
    agree(|comparison| {
        comparison.small_alike(&mut Rng::new(34), 3, &[few.clone(), bare.clone()].concat())
    });
    for rng in [Rng::new(35), Rng::new(35).bare()] {
        agree(|comparison| comparison.alike(&mut rng.clone(), 200));
        agree(|comparison| comparison.near_alike(&mut rng.clone(), 1));
    }
    agree(|comparison| comparison.alike_series(&mut Rng::new(36), 60));
    agree(|comparison| comparison.alike_stores(&mut Rng::new(37), 400));
}

/// The same without lines (document 02, 13).
#[test]
fn bare() {
    let (bare, rng) = (gen::bare_settings(), |seed: u64| Rng::new(seed).bare());
    agree(|comparison| comparison.mixtures());
    agree(|comparison| comparison.small_tables(4, &bare));
    agree(|comparison| comparison.two_groups(&bare[2..4]));
    agree(|comparison| comparison.tables(&mut rng(11), 100));
    agree(|comparison| comparison.limits(&mut rng(12), 1));
    agree(|comparison| comparison.cases(&mut rng(13), 500));
    agree(|comparison| comparison.small_places(4, &bare[..3]));
    agree(|comparison| comparison.tables_places(&mut rng(22), 30));
    agree(|comparison| comparison.small_folds(3, &bare));
    agree(|comparison| comparison.folds(&mut rng(24), 30));
    agree(|comparison| comparison.small_plans(3, &bare));
    agree(|comparison| comparison.plans(&mut rng(26), 100));
    agree(|comparison| comparison.small_needs(4, &bare));
    agree(|comparison| comparison.needs(&mut rng(28), 30));
}

#[test]
fn lists() {
    agree(|comparison| comparison.lists(&mut Rng::new(14), 500));
}

#[test]
fn shares() {
    agree(|comparison| comparison.shares(&mut Rng::new(15), 8));
    for (spare, n) in [(0, 1), (7, 3), (9, 3), (1000, 511), (3, 511)] {
        for priority in 0..3 {
            let parts: Vec<usize> = (0..n)
                .map(|index| paper::share(spare, n, priority, index))
                .collect();
            assert_eq!(original::shares_of_width(spare, n, priority), parts);
            assert_eq!(original::shares_of_height(spare, n, priority), parts);
            assert_eq!(parts.iter().sum::<usize>(), spare);
        }
    }
    for priority in 3..=255 {
        let parts = [0, 1, 2].map(|index| paper::share(7, 3, priority, index));
        assert_eq!(parts, [3, 2, 2], "priority {priority}");
    }
}

/// The random cases reach every number of the table in every call that can give it, with lines and without.
#[test]
fn every_number_is_reached() {
    for rng in [Rng::new(1), Rng::new(1).bare()] {
        let (mut one, mut other) = (Paper::default(), Paper::default());
        let mut comparison = Comparison::new(&mut one, &mut other);
        let run = comparison
            .cases(&mut rng.clone(), 4000)
            .and_then(|()| comparison.any_folds(&mut rng.clone(), 400))
            .and_then(|()| comparison.any_plans(&mut rng.clone(), 400))
            .and_then(|()| comparison.any_needs(&mut rng.clone(), 400))
            .and_then(|()| comparison.any_stores(&mut rng.clone(), 400))
            .and_then(|()| comparison.any_blanks(&mut rng.clone(), 400))
            .and_then(|()| comparison.any_typed(&mut rng.clone(), 2000))
            .and_then(|()| comparison.typed_limits(&mut rng.clone(), 1))
            .and_then(|()| comparison.alike(&mut rng.clone(), 400))
            .and_then(|()| comparison.near_alike(&mut rng.clone(), 1))
            .and_then(|()| comparison.alike_series(&mut rng.clone(), 60))
            .and_then(|()| comparison.alike_stores(&mut rng.clone(), 400))
            .and_then(|()| comparison.lists(&mut rng.clone(), 10))
            .and_then(|()| comparison.shares(&mut rng.clone(), 3));
        run.expect("a side agrees with itself");
        for (call, numbers) in NUMBERS {
            assert_eq!(comparison.counts.reached(call), numbers, "{call}");
        }
    }
}

/// Random settings have margins of every size on every side, and half of them none; every second choice has one, too.
#[test]
fn every_margin_is_reached() {
    let mut rng = Rng::new(19);
    let random: Vec<Margin> = (0..4000)
        .map(|_| gen::settings(&mut rng, Margins::Half).margin)
        .collect();
    let choices: Vec<Margin> = gen::choices().iter().map(|choice| choice.margin).collect();
    for margins in [random, choices] {
        let none = margins.iter().filter(|&&margin| margin == Margin::NONE);
        let percent = none.count() * 100 / margins.len();
        assert!((45..=55).contains(&percent), "{percent}");
        for side in 0..4 {
            for size in 0..=16 {
                let mut of_size = margins.iter().filter(|margin| margin.sizes[side] == size);
                assert!(of_size.any(|margin| margin.fills[side] != b' '));
            }
        }
    }
}

/// In a sheet of even blocks, without zero-wide leaves and extra blanks, the stand-in `Table` never fills up: it joins blocks of equal height side by side and blocks of
/// equal width one under the other. Its own assumptions about others never show: a sheet with such leaves is not the crate's.
#[test]
fn compared_sheets_are_joined_evenly() {
    let mut even = 0;
    let mut uneven = 0;
    let mut look = |settings: &Settings, tree: &Tree| {
        let seen = original::seen(settings, tree);
        if seen.answer.leaves.iter().all(original::is_even) {
            assert_eq!(seen.uneven, 0);
            even += 1;
        } else if seen.uneven > 0 {
            uneven += 1;
        }
    };
    for nodes in 1..=4 {
        for tree in gen::small_trees(nodes, &["", "a", "bcd", "e\nfg"]) {
            for settings in [gen::few_settings(), gen::bare_settings()].concat() {
                look(&settings, &tree);
            }
        }
    }
    for mut rng in [Rng::new(16), Rng::new(16).bare()] {
        for _ in 0..500 {
            let (settings, tree) = gen::table(&mut rng, Margins::Half);
            look(&settings, &tree);
        }
    }
    assert!(even > 4000 && uneven > 100, "{even} {uneven}");
}

/// D is what the crate's own `PoolTable::from` starts with: its `configure_grid`, `Style::ascii` and List priorities.
#[test]
fn the_defaults() {
    for nodes in 1..=4 {
        for tree in gen::small_trees(nodes, &["", "ab", "c\nd"]) {
            let sheet = original::sheet(&Settings::D, &tree);
            assert_eq!(original::default_sheet(&tree), sheet);
        }
    }
    let mut rng = Rng::new(17);
    for _ in 0..200 {
        let (_, tree) = gen::table(&mut rng, Margins::None);
        let sheet = original::sheet(&Settings::D, &tree);
        assert_eq!(original::default_sheet(&tree), sheet);
    }
}

/// 'Horizontal and vertical are never printed.'
#[test]
fn two_marks_are_never_printed() {
    for tree in gen::small_trees(4, &["a", "b\nc"]) {
        let mut settings = Settings::M;
        let sheet = original::sheet(&settings, &tree);
        settings.marks[4..6].copy_from_slice(b"#$");
        assert_eq!(original::sheet(&settings, &tree), sheet);
    }
}

/// A side with one fault.
struct Faulty {
    paper: Paper,
    fault: u8,
}

const FAULTS: u8 = typed::LAST + 1;

/// The judge's numbers with the margin and without it: whether only the margin makes a sheet too large.
fn is_large_by_margin(number: u8, settings: &[u8], tree: &[u8]) -> bool {
    number == 6 && judge::sheet(&settings[..31], tree, usize::MAX) != 6
}

/// Whether a leaf of a sheet that can be printed has width 0.
fn has_blank(settings: &[u8], tree: &[u8]) -> bool {
    judge::shown(settings, tree).is_ok_and(|read| {
        let mut leaves = judge::leaves(&read.tree).into_iter();
        leaves.any(|leaf| read.sizes[leaf].allotted_width == 0)
    })
}

/// Whether a planning tree has a range.
fn has_range(tree: &[u8]) -> bool {
    planning::read_plan(tree).is_ok_and(|plan| !plan.ranges().is_empty())
}

/// Whether a range with its least above its greatest is somewhere in the bytes.
fn has_bad_range(tree: &[u8]) -> bool {
    let mut parts = tree.windows(7);
    parts.any(|part| matches!(part, [4, 0, 4, a, b, c, d] if a > b || c > d))
}

/// The tree with an empty Cell instead of each empty Row and Column.
fn filled(tree: &Tree) -> Tree {
    let list = |children: &[Tree]| children.iter().map(filled).collect();
    match tree {
        Tree::Row(children) if !children.is_empty() => Tree::Row(list(children)),
        Tree::Column(children) if !children.is_empty() => Tree::Column(list(children)),
        Tree::Cell(text) => Tree::Cell(text.clone()),
        _ => Tree::cell(""),
    }
}

/// The store as a call leaves it, and the call's number.
fn kept(store: &mut [u8], after: Result<Vec<u8>, u8>) -> u8 {
    after.map_or_else(
        |number| number,
        |after| {
            store.copy_from_slice(&after);
            0
        },
    )
}

impl Calls for Faulty {
    fn read_settings(&mut self, settings: &[u8]) -> ReadSettings {
        let mut answer = self.paper.read_settings(settings);
        if self.fault == 0 && answer.number == 1 {
            answer.settings.horizontal = 1;
        }
        answer.settings.marks = lines::marks(self.fault, answer.settings.marks);
        answer.number = lines::number(self.fault, settings, answer.number);
        answer
    }

    fn read_margin(&mut self, settings: &[u8]) -> ReadMargin {
        let mut answer = self.paper.read_margin(settings);
        match self.fault {
            15 if answer.margin == Margin::NONE => answer.margin = Margin::BLANK,
            16 if answer.number == 1 => answer.margin.sizes[0] = 1,
            // No margin around a sheet without lines.
            146 if lines::is_bare(settings) => {
                answer = ReadMargin {
                    number: 1,
                    margin: Margin::BLANK,
                };
            }
            _ => {}
        }
        answer
    }

    fn read_tree(&mut self, tree: &[u8]) -> Counted {
        let mut answer = self.paper.read_tree(tree);
        match self.fault {
            1 if answer.number == 3 => answer.number = 2,
            // A planning tree taken.
            74 if has_range(tree) => answer.number = 0,
            _ => {}
        }
        answer
    }

    fn sizes(&mut self, settings: &[u8], tree: &[u8], list: &mut [SizeRecord]) -> Counted {
        let settings = &lines::seen(self.fault, 132, settings);
        let answer = self.paper.sizes(settings, tree, list);
        match self.fault {
            // An entry past the count, and one on a refusal.
            2 if answer.count < list.len() => list[answer.count].natural_width ^= 1,
            3 if answer.number == 8 && !list.is_empty() => list[0] = SizeRecord::default(),
            // The node itself counted; the root's children alone; the count at the branch's last node; one past the count.
            49 => list[..answer.count]
                .iter_mut()
                .for_each(|size| size.below += 1),
            50 if answer.number == 0 => {
                let root = judge::read_tree(tree).expect("an accepted tree");
                list[0].below = root.children().len() as u16;
            }
            51 if answer.number == 0 => {
                let below = std::mem::take(&mut list[0].below);
                list[usize::from(below)].below = below;
            }
            52 if answer.count < list.len() => list[answer.count].below = 0,
            _ => {}
        }
        answer
    }

    fn leaf_record(&mut self, settings: &[u8], tree: &[u8], node: usize) -> LeafRecord {
        let settings = &lines::seen(self.fault, 133, settings);
        // The margin left out of W and H.
        let number = judge::leaf_record(settings, tree, node);
        if self.fault == 17 && is_large_by_margin(number, settings, tree) {
            return self.paper.leaf_record(&settings[..31], tree, node);
        }
        let mut answer = self.paper.leaf_record(settings, tree, node);
        match self.fault {
            4 => answer.flags.top_intersection = false,
            5 => answer.vertical.pieces[511] = 1,
            6 if answer.number == 9 => answer.node = node,
            // No pair; one on a refusal; that of the horizontal list in a Column, too.
            21 => answer.pair = CutPair::default(),
            22 if answer.number == 9 => answer.pair.taken = 1,
            23 => answer.pair.taken = answer.horizontal.count,
            _ => {}
        }
        answer
    }

    fn leaf(&mut self, settings: &[u8], tree: &[u8], node: usize, output: &mut [u8]) -> Counted {
        let settings = &lines::seen(self.fault, 134, settings);
        if let Some(block) = lines::block(self.fault, settings, tree, node) {
            return lines::put(&block, output);
        }
        // No marks around no columns.
        let is_blank = |leaf: LeafRecord| (leaf.number, leaf.width) == (0, 0);
        if self.fault == 53 && is_blank(self.paper.leaf_record(settings, tree, node)) {
            return Counted::default();
        }
        let number = judge::leaf(settings, tree, node, output.len());
        if self.fault == 18 && is_large_by_margin(number, settings, tree) {
            return self.paper.leaf(&settings[..31], tree, node, output);
        }
        let answer = self.paper.leaf(settings, tree, node, output);
        match self.fault {
            7 if answer.count > 0 => output[answer.count - 1] = b' ',
            8 if answer.count < output.len() => output[answer.count] = 0x0A,
            14 if answer.number == 8 && !output.is_empty() => output[0] = b' ',
            _ => {}
        }
        answer
    }

    fn sheet(&mut self, settings: &[u8], tree: &[u8], output: &mut [u8]) -> Counted {
        let settings = &lines::seen(self.fault, 135, settings);
        if let Some(sheet) = lines::sheet(self.fault, settings, tree) {
            return lines::put(&sheet, output);
        }
        // 6 for a sheet that would be too large with lines.
        if lines::is_large_with_lines(self.fault, settings, tree) {
            return Counted {
                number: 6,
                count: 0,
            };
        }
        // Refuses an output that is just long enough.
        if self.fault == 9 && judge::sheet(settings, tree, output.len().saturating_sub(1)) == 8 {
            return Counted {
                number: 8,
                count: 0,
            };
        }
        let answer = self.paper.sheet(settings, tree, output);
        let margin = self.paper.read_margin(settings).margin;
        let [left, _, top, _] = margin.sizes;
        match self.fault {
            19 if is_large_by_margin(answer.number, settings, tree) => Counted {
                number: 8,
                count: 0,
            },
            // 7, which never occurs.
            54 if has_blank(settings, tree) => Counted {
                number: 7,
                count: 0,
            },
            // The top fill at the ends of its lines, too.
            20 if answer.number == 0 && left > 0 && top > 0 => {
                output[0] = margin.fills[2];
                answer
            }
            _ => answer,
        }
    }

    fn place(&mut self, settings: &[u8], tree: &[u8], line: usize, column: usize) -> LeafPlace {
        let (line, column) = match self.fault {
            // Exchanged; 32 bits of each.
            28 => (column, line),
            29 => (line as u32 as usize, column as u32 as usize),
            _ => (line, column),
        };
        let settings = &lines::seen(self.fault, 136, settings);
        // The margin not taken off.
        let settings = match self.fault {
            30 => &settings[..settings.len().min(31)],
            _ => settings,
        };
        let answer = self.paper.place(settings, tree, line, column);
        let mut answer = lines::place(self.fault, settings, tree, answer);
        match self.fault {
            // 12 before 6; 12 in the margin; 13 past the sheet's last line, in the margin's columns; a refusal with a leaf.
            31 if answer.number == 6 && line > judge::SHEET_HEIGHT => answer.number = 12,
            32 if answer.number == 13 => answer.number = 12,
            33 if answer.number == 12 && column == 0 => answer.number = 13,
            34 if answer.number == 12 => answer.node = 1,
            55 if has_blank(settings, tree) => answer.number = 7,
            // Counted from 1; the first column given to the leaf on the left.
            35 if answer.number == 0 => answer.line += 1,
            36 if answer.number == 0 && answer.column == 0 && column > 0 => {
                let left = self.paper.place(settings, tree, line, column - 1);
                if left.number == 0 {
                    answer = left;
                    answer.column += 1;
                }
            }
            _ => {}
        }
        answer
    }

    fn places(
        &mut self,
        settings: &[u8],
        tree: &[u8],
        places: &[(usize, usize)],
        answers: &mut [Owner],
    ) -> Marked {
        let refused = |number: u8| Marked {
            number,
            ..Marked::default()
        };
        let settings = &lines::seen(self.fault, 137, settings);
        let mut answer = self.paper.places(settings, tree, places, answers);
        let Marked { number, count, .. } = answer;
        let alone = |&(line, column): &(usize, usize)| {
            let place = self.paper.place(settings, tree, line, column);
            place.number
        };
        let numbers: Vec<u8> = places.iter().map(alone).collect();
        match self.fault {
            // In tree order; a repeat without its answer; the answers past the places cleared; all of the lent ones counted.
            37 => answers[..count].sort_by_key(|owner| owner.node),
            38 => {
                for at in 1..count {
                    if places[..at].contains(&places[at]) {
                        answers[at] = Owner::default();
                    }
                }
            }
            39 => answers[count..].fill(Owner::default()),
            40 if number == 0 => answer.count = answers.len(),
            // An answer, or the elements read, beside a refusal.
            41 if number == 12 && !answers.is_empty() => answers[0] = Owner::default(),
            42 if number == 8 => answer.read = 1,
            // No walk for no places; the answers counted instead of the elements.
            43 if count == 0 => answer.read = 0,
            44 => answer.read = count,
            // The last place's refusal; 14 after the places; 14 for 256 of them; 8 before the places.
            45 if number == 12 || number == 13 => {
                let last = numbers.into_iter().rfind(|&number| number != 0);
                answer = refused(last.unwrap_or(0));
            }
            46 if number == 14 => {
                let first = numbers.into_iter().find(|&number| number != 0);
                answer = refused(first.unwrap_or(14));
            }
            47 if count == judge::PLACES => answer = refused(14),
            48 if matches!(number, 12 | 13) && answers.len() < places.len() => answer = refused(8),
            _ => {}
        }
        answer
    }

    fn fold(
        &mut self,
        settings: &[u8],
        tree: &[u8],
        width: usize,
        budget: usize,
        columns: &mut [u16],
    ) -> Folded {
        let refused = |number: u8| Folded {
            number,
            ..Folded::default()
        };
        // 32 bits of the width, or of the budget; the single Column as a try.
        let (width, budget) = match self.fault {
            56 => (width as u32 as usize, budget),
            57 => (width, budget as u32 as usize),
            58 => (width, budget.saturating_sub(1)),
            _ => (width, budget),
        };
        let settings = &lines::seen(self.fault, 138, settings);
        let lent = columns.to_vec();
        let mut answer = self.paper.fold(settings, tree, width, budget, columns);
        let Folded { number, count, .. } = answer;
        // A planning tree as another kind of tree.
        if self.fault == 75 && has_range(tree) {
            answer = refused(15);
        }
        let read = match judge::read(settings, tree) {
            Ok(read) if self.fault < FAULTS => read,
            _ => return answer,
        };
        let cells = read.cells().unwrap_or(&[]);
        if cells.is_empty() {
            // 16 before 15.
            if self.fault == 71 && read.within(width).is_err() {
                answer = refused(16);
            }
            return answer;
        }
        let folds = folding::folds(&read.settings, cells);
        let tallest = folds[folds.len() - 1].height;
        match self.fault {
            // The entries past the Columns cleared; all of the lent ones counted; an entry, or the height, beside a refusal; the Columns from the last on.
            59 => columns[count..].fill(0),
            60 if number == 0 => answer.count = lent.len(),
            61 if number == 8 && !columns.is_empty() => columns[0] = 0,
            62 if number == 8 => answer.height = tallest,
            63 => columns[..count].reverse(),
            // The height of what was folded; the budget as the tries; the way down to the tallest as the miss, or none.
            64 if number == 0 => {
                let row = folding::row(cells, &folds[folds[0].height - answer.height].columns);
                answer.height = paper::sizes(&read.settings, &row)[0].natural_height;
            }
            65 if number == 0 => answer.tries = budget,
            66 if number == 0 => answer.miss = answer.height - tallest,
            67 => answer.miss = 0,
            // The first t that does not fit ends the tries.
            68 if number == 0 => {
                let tried = folds[..=answer.tries].iter();
                let fitted = tried.take_while(|fold| fold.width <= width).last();
                answer.height = fitted.map_or(0, |fold| fold.height);
            }
            // No separators between the Columns.
            69 if number == 0 => {
                let mut folds: Vec<Fold> = folds;
                for fold in &mut folds {
                    fold.width = fold.width.saturating_sub(fold.columns.len() - 1);
                }
                answer.height = folding::chosen(&folds, width, budget).fold.height;
            }
            // 8 before 16; 15 for 200 Cells; 6 for a list that is no sheet.
            70 if number == 16 && lent.is_empty() => answer = refused(8),
            72 if cells.len() == judge::CELLS => {
                columns.copy_from_slice(&lent);
                answer = refused(15);
            }
            73 if number == 0 && judge::sheet(settings, tree, usize::MAX) == 6 => {
                columns.copy_from_slice(&lent);
                answer = refused(6);
            }
            _ => {}
        }
        answer
    }

    fn plan(&mut self, settings: &[u8], tree: &[u8]) -> Planned {
        let refused = |number: u8| Planned {
            number,
            ..Planned::default()
        };
        let narrow = |sizes: [usize; 2]| sizes.map(|size| size as u16 as usize);
        let settings = &lines::seen(self.fault, 139, settings);
        let mut answer = self.paper.plan(settings, tree);
        let number = answer.number;
        let Ends { width, height } = &mut answer.ends;
        match self.fault {
            // A range alone: of another length 17; without a line, or without a column, 0 or 17; of one size 17.
            76 if number == 2 && tree.first() == Some(&4) => answer = refused(17),
            77 if number == 17 && matches!(tree, [4, 0, 4, a, b, 0, _] if a <= b) => {
                answer.number = 0;
            }
            78 if number == 0 && matches!(tree, [4, 0, 4, 0, ..]) => answer = refused(17),
            79 if number == 0 && matches!(tree, [4, 0, 4, a, b, ..] if a == b) => {
                answer = refused(17);
            }
            // 17 before 5, before 4, and before what is in a node before it; 6 for what is no sheet; ends beside a refusal.
            80 if number == 5 && has_bad_range(tree) => answer = refused(17),
            81 if number == 4 && has_bad_range(tree) => answer = refused(17),
            82 if number == 3 && has_bad_range(tree) => answer = refused(17),
            83 if number == 0 && (width[0] > 400 || height[0] > 160) => answer = refused(6),
            84 if number == 17 => width[0] = 1,
            // The margin, or the edges, left out; 16 bits; width and height exchanged; the ends exchanged.
            85 => answer = self.paper.plan(&settings[..settings.len().min(31)], tree),
            86 if number == 0 => *width = width.map(|width| width.saturating_sub(2)),
            87 => (*width, *height) = (narrow(*width), narrow(*height)),
            88 => std::mem::swap(width, height),
            89 => width.reverse(),
            _ => {}
        }
        let Ok((settings, plan)) = planning::read(settings, tree) else {
            return answer;
        };
        let changed = |change: fn(&Range) -> Range| {
            let mut plan = plan.clone();
            for cell in plan.cells_mut() {
                if let Plan::Range(range) = cell {
                    *range = change(range);
                }
            }
            planning::ends(&settings, &plan)
        };
        match self.fault {
            // The widths' ends for the line counts, too; a range of no columns as one of one.
            90 => {
                answer.ends = changed(|range| Range {
                    lines: range.width.map(|width| width.max(1)),
                    ..*range
                });
            }
            91 => {
                answer.ends = changed(|range| Range {
                    width: range.width.map(|width| width.max(1)),
                    ..*range
                });
            }
            _ => {}
        }
        answer
    }

    fn widen(
        &mut self,
        settings: &[u8],
        tree: &[u8],
        nodes: &mut [u16],
        letters: &mut [u32],
    ) -> Counted {
        let refused = |number: u8| Counted { number, count: 0 };
        let settings = &lines::seen(self.fault, 140, settings);
        let (lent_nodes, lent_letters) = (nodes.to_vec(), letters.to_vec());
        let mut answer = self.paper.widen(settings, tree, nodes, letters);
        let Counted { number, count } = answer;
        match self.fault {
            // The entries past the Cells cleared; all of the lent ones counted; an entry beside a refusal.
            92 => nodes[count..].fill(0),
            93 => letters[count..].fill(0),
            94 if number == 0 => answer.count = nodes.len(),
            95 if number == 8 && !nodes.is_empty() => nodes[0] = 0,
            96 if number == 8 && !letters.is_empty() => letters[0] = 1,
            // The letters that change nothing; one letter for every Cell.
            97 => letters[..count].iter_mut().for_each(|n| *n -= 1),
            98 => letters[..count].fill(1),
            // A short list instead of 2; a planning tree taken; a Cell alone not listed; no Cells as too short a list.
            99 if number == 2 && nodes.is_empty() => answer = refused(8),
            100 if has_range(tree) => answer = refused(0),
            101 if tree.first() == Some(&1) && number == 0 => answer.count = 0,
            102 if number == 0 && count == 0 && nodes.is_empty() => answer = refused(8),
            // The letters added to the first line.
            108 if number == 0 && tree == b"\x01\x00\x04e\nfg" => letters[0] = 2,
            _ => {}
        }
        let Ok(tree_read) = judge::read_tree(tree) else {
            return answer;
        };
        let cells = widening::cells(&tree_read).len();
        let mut list: Vec<(u16, u32)> = (nodes.iter().copied())
            .zip(letters.iter().copied())
            .take(count)
            .collect();
        match self.fault {
            // In node order; of equal numbers the last node first.
            103 => list.sort(),
            104 => list.sort_by_key(|&(node, letters)| (letters, std::cmp::Reverse(node))),
            // The empty groups listed, too.
            105 if number == 0 => {
                let tree = encode_tree(&filled(&tree_read));
                nodes.copy_from_slice(&lent_nodes);
                letters.copy_from_slice(&lent_letters);
                return self.paper.widen(settings, &tree, nodes, letters);
            }
            // 6 for what is no sheet.
            109 if number == 0 && judge::sheet(settings, tree, usize::MAX) == 6 => {
                nodes.copy_from_slice(&lent_nodes);
                letters.copy_from_slice(&lent_letters);
                return refused(6);
            }
            // One of the two lists not looked at.
            106 if number == 8 && nodes.len() >= cells => answer = refused(0),
            107 if number == 8 && letters.len() >= cells => answer = refused(0),
            _ => return answer,
        }
        for ((node, letters), entry) in nodes.iter_mut().zip(letters).zip(list) {
            (*node, *letters) = entry;
        }
        answer
    }

    fn save_draft(&mut self, store: &mut [u8], name: u8, tree: &[u8]) -> u8 {
        let saved = faulty::save(self.fault, store, name, tree);
        kept(store, saved)
    }

    fn forget_draft(&mut self, store: &mut [u8], name: u8) -> u8 {
        let left = faulty::forget(self.fault, store, name);
        kept(store, left)
    }

    fn return_draft(&mut self, store: &[u8], name: u8, output: &mut [u8]) -> Counted {
        match faulty::return_to(self.fault, store, name, output) {
            Ok(count) => Counted { number: 0, count },
            Err(number) => Counted { number, count: 0 },
        }
    }

    fn blank(&mut self, tree: &[u8], nodes: &[u16], output: &mut [u8]) -> Counted {
        blanks::blank(self.fault, tree, nodes, output)
    }

    fn read_typed(&mut self, list: &[u8], output: &mut [u8]) -> Typed {
        typed::read(self.fault, list, output)
    }

    fn short_splits3(&mut self, list: &SplitList, width: u16) -> CutParts {
        let mut answer = self.paper.short_splits3(list, width);
        match self.fault {
            10 => answer.split = false,
            11 => answer.left.pieces[511] = list.pieces[511],
            // The piece before it loses its 1; the one behind a piece that was removed; a refusal that counts.
            24 if !answer.split && answer.left.count > 0 => answer.pair.rest += 1,
            25 if answer.split => answer.pair.rest = answer.left.pieces[0].into(),
            26 if answer.number == 10 => answer.pair.taken = judge::PIECES,
            _ => {}
        }
        answer
    }

    fn short_splits3_lent(&mut self, list: &mut SplitList, width: u16) -> CutParts {
        let mut answer = self.paper.short_splits3_lent(list, width);
        if self.fault == 27 {
            answer.pair = CutPair::default();
        }
        answer
    }

    fn short_splits(&mut self, list: &SplitList, width: u16) -> CutPositions {
        let mut answer = self.paper.short_splits(list, width);
        if self.fault == 12 {
            answer.left = list.clone();
        }
        answer
    }

    fn share(&mut self, spare: usize, n: usize, priority: u8, index: usize) -> Shared {
        // All to the first child under List.
        let priority = if self.fault == 13 && priority > 1 {
            0
        } else {
            priority
        };
        self.paper.share(spare, n, priority, index)
    }
}

/// A comparison of every call with lines.
fn with_lines(comparison: &mut Comparison) -> Result<(), Difference> {
    let rng = || Rng::new(18);
    comparison.small_stores(3, 1)?;
    comparison.any_stores(&mut rng(), 400)?;
    comparison.small_needs(2, &gen::few_settings())?;
    comparison.any_needs(&mut rng(), 100)?;
    comparison.faulty_plans(3)?;
    comparison.small_plans(2, &gen::few_settings())?;
    comparison.any_plans(&mut rng(), 200)?;
    comparison.plans(&mut rng(), 50)?;
    comparison.small_tables(3, &[Settings::M])?;
    comparison.tables(&mut rng(), 20)?;
    comparison.cases(&mut rng(), 300)?;
    comparison.lists(&mut rng(), 100)?;
    comparison.shares(&mut rng(), 4)?;
    comparison.limits(&mut rng(), 1)?;
    comparison.small_places(3, &gen::few_settings())?;
    comparison.tables_places(&mut rng(), 3)?;
    comparison.small_folds(2, &gen::few_settings())?;
    comparison.any_folds(&mut rng(), 200)?;
    comparison.folds(&mut rng(), 20)
}

/// A comparison of every call on settings without lines.
fn without_lines(comparison: &mut Comparison) -> Result<(), Difference> {
    let (bare, rng) = (gen::bare_settings(), || Rng::new(18).bare());
    comparison.small_tables(3, &bare)?;
    comparison.tables(&mut rng(), 20)?;
    comparison.small_places(3, &bare)?;
    comparison.small_folds(2, &bare)?;
    comparison.small_plans(3, &bare)?;
    comparison.any_needs(&mut rng(), 50)?;
    let (settings, tree) = gen::corner(Settings::D.bare(), [0; 4], 0, 0);
    comparison.table(&settings, &tree)?;
    comparison.mixtures()
}

/// A comparison of the call that blanks.
fn with_blanks(comparison: &mut Comparison) -> Result<(), Difference> {
    comparison.small_blanks(3)?;
    comparison.blanks(&mut Rng::new(18), 50)?;
    comparison.any_blanks(&mut Rng::new(18), 50)
}

/// A comparison of the call that reads typed lists.
fn with_typed(comparison: &mut Comparison) -> Result<(), Difference> {
    comparison.short_typed(3, 2)?;
    comparison.typed_trees(&mut Rng::new(18), 200)?;
    comparison.any_typed(&mut Rng::new(18), 3000)?;
    comparison.typed_limits(&mut Rng::new(18), 1)
}

/// The comparison finds each fault, and nothing without one.
#[test]
fn faults_are_found() {
    for fault in 0..=FAULTS {
        let paper = Paper::default();
        let (mut one, mut other) = (Paper::default(), Faulty { paper, fault });
        let mut comparison = Comparison::new(&mut one, &mut other);
        let run = match fault {
            FAULTS => with_lines(&mut comparison)
                .and_then(|()| without_lines(&mut comparison))
                .and_then(|()| with_blanks(&mut comparison))
                .and_then(|()| with_typed(&mut comparison)),
            typed::FIRST.. => with_typed(&mut comparison),
            blanks::FIRST.. => with_blanks(&mut comparison),
            lines::FIRST.. => without_lines(&mut comparison),
            _ => with_lines(&mut comparison),
        };
        assert_eq!(run.is_err(), fault < FAULTS, "fault {fault}");
    }
}
