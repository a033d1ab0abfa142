//! Two sides of the calls: the crate and the documents. Both refuse as the judge says, keep drafts as `drafting` does, blank texts as `blanking` does and read typed lists as
//! `typing` does: the crate has none of these.

use crate::calls::{
    Calls, Counted, CutParts, CutPositions, Folded, LeafPlace, LeafRecord, Marked, Planned,
    ReadMargin, ReadSettings, Shared, SizeRecord, SplitList, Typed,
};
use crate::folding::{self, Chosen};
use crate::form::{
    Answer, Cut, Cut3, CutPair, Ends, Flags, Fold, Need, Owner, Owners, Plan, Settings, Tree,
};
use crate::judge;
use crate::typing::Fault;
use crate::{blanking, drafting, original, paper, planning, typing, widening};

/// Where the answers of a side come from; the refusals are the judge's.
pub trait Answers {
    fn answer(&self, settings: &Settings, tree: &Tree) -> Answer;
    /// Of a sheet and its answer.
    fn owners(&self, settings: &Settings, tree: &Tree, answer: &Answer) -> Owners;
    /// Every fold of a list of Cells, from the one-Column height down to the tallest of them.
    fn folds(&self, settings: &Settings, cells: &[Tree]) -> Vec<Fold>;
    fn ends(&self, settings: &Settings, plan: &Plan) -> Ends;
    /// The Cells with the letters that widen the sheet, in the order of the answer.
    fn needs(&self, settings: &Settings, tree: &Tree) -> Vec<Need>;
    fn cut3(&self, list: &[usize], width: usize) -> Cut3;
    fn cut(&self, list: &[usize], width: usize) -> Cut;
    fn part(&self, spare: usize, n: usize, priority: u8, index: usize) -> usize;
}

/// The crate.
#[derive(Debug, Default)]
pub struct Crate;

/// The documents.
#[derive(Debug, Default)]
pub struct Document;

impl Answers for Crate {
    /// The crate's, but for the bytes of zero-wide leaves.
    fn answer(&self, settings: &Settings, tree: &Tree) -> Answer {
        paper::mended(settings, tree, original::answer(settings, tree))
    }

    fn owners(&self, settings: &Settings, tree: &Tree, answer: &Answer) -> Owners {
        original::owners(settings, tree, answer)
    }

    fn folds(&self, settings: &Settings, cells: &[Tree]) -> Vec<Fold> {
        original::folds(settings, cells)
    }

    fn ends(&self, settings: &Settings, plan: &Plan) -> Ends {
        original::ends(settings, plan)
    }

    fn needs(&self, settings: &Settings, tree: &Tree) -> Vec<Need> {
        original::needs(settings, tree)
    }

    fn cut3(&self, list: &[usize], width: usize) -> Cut3 {
        original::cut3(list, width)
    }

    fn cut(&self, list: &[usize], width: usize) -> Cut {
        original::cut(list, width)
    }

    /// The crate shares inside its walk only; a table with more spare than this is not built, and the document's rule answers. Its settings have 2 for every number over 1.
    fn part(&self, spare: usize, n: usize, priority: u8, index: usize) -> usize {
        if spare > 0xFFFF || n > 1024 {
            return paper::share(spare, n, priority, index);
        }
        original::shares_of_width(spare, n, priority.min(2))[index]
    }
}

impl Answers for Document {
    fn answer(&self, settings: &Settings, tree: &Tree) -> Answer {
        paper::answer(settings, tree)
    }

    fn owners(&self, settings: &Settings, tree: &Tree, answer: &Answer) -> Owners {
        paper::owners(settings, tree, answer)
    }

    fn folds(&self, settings: &Settings, cells: &[Tree]) -> Vec<Fold> {
        folding::folds(settings, cells)
    }

    fn ends(&self, settings: &Settings, plan: &Plan) -> Ends {
        planning::ends(settings, plan)
    }

    fn needs(&self, settings: &Settings, tree: &Tree) -> Vec<Need> {
        widening::needs(settings, tree)
    }

    fn cut3(&self, list: &[usize], width: usize) -> Cut3 {
        paper::cut3(list, width)
    }

    fn cut(&self, list: &[usize], width: usize) -> Cut {
        paper::cut(list, width)
    }

    fn part(&self, spare: usize, n: usize, priority: u8, index: usize) -> usize {
        paper::share(spare, n, priority, index)
    }
}

/// What was worked out for the last bytes of settings and tree.
#[derive(Debug)]
struct Last<T> {
    settings: Vec<u8>,
    tree: Vec<u8>,
    kept: T,
}

impl<T> Last<T> {
    fn new(settings: &[u8], tree: &[u8], kept: T) -> Option<Last<T>> {
        let (settings, tree) = (settings.to_vec(), tree.to_vec());
        Some(Last {
            settings,
            tree,
            kept,
        })
    }

    fn is_of(last: &Option<Last<T>>, settings: &[u8], tree: &[u8]) -> bool {
        last.as_ref()
            .is_some_and(|last| last.settings == settings && last.tree == tree)
    }
}

/// A side made of answers and the judge's refusals. It keeps its last answer, its last sheet, its last list and its last needs: a comparison makes calls for every node of one
/// table, for every place, for many folds, and with lists of many lengths.
#[derive(Debug, Default)]
pub struct Side<A> {
    answers: A,
    last: Option<Last<Answer>>,
    sheet: Option<Last<Result<Sheet, u8>>>,
    list: Option<Last<Result<List, u8>>>,
    needs: Option<Last<Vec<Need>>>,
}

/// A sheet that can be printed.
#[derive(Debug)]
struct Sheet {
    read: judge::Read,
    owners: Owners,
}

impl Sheet {
    /// The owner of a place, or 12 or 13.
    fn place(&self, line: usize, column: usize) -> Result<Owner, u8> {
        self.read.place(line, column)?;
        Ok(self.owners[line][column].expect("a place inside has an owner"))
    }

    /// The owner of each place, 'each exactly as if it had been put alone', and the elements read: they 'equal the node count .. even for no places'.
    fn places(
        &self,
        places: &[(usize, usize)],
        answers: &mut [Owner],
    ) -> Result<(usize, usize), u8> {
        self.read.places(places, answers.len())?;
        for (answer, &(line, column)) in answers.iter_mut().zip(places) {
            *answer = self.place(line, column)?;
        }
        Ok((places.len(), self.read.sizes.len()))
    }
}

/// A list that can be folded.
#[derive(Debug)]
struct List {
    read: judge::Read,
    folds: Vec<Fold>,
}

impl List {
    /// The fold of a width and a budget, or 16 or 8.
    fn fold(&self, width: usize, budget: usize, columns: &mut [u16]) -> Result<Folded, u8> {
        self.read.within(width)?;
        let Chosen { fold, tries, miss } = folding::chosen(&self.folds, width, budget);
        let count = fold.columns.len();
        let written = columns.get_mut(..count).ok_or(8)?;
        for (entry, &cells) in written.iter_mut().zip(&fold.columns) {
            *entry = narrow(cells);
        }
        Ok(Folded {
            number: 0,
            count,
            height: fold.height,
            tries,
            miss,
        })
    }
}

/// The crate's answers under the documents' refusals.
pub type Original = Side<Crate>;

/// The documents' words.
pub type Paper = Side<Document>;

impl<A: Answers> Side<A> {
    /// The answer for bytes that the judge has accepted.
    fn accepted(&mut self, settings: &[u8], tree: &[u8]) -> &Answer {
        if !Last::is_of(&self.last, settings, tree) {
            let read = (judge::read_settings(settings), judge::read_tree(tree));
            let (Ok(settings_read), Ok(tree_read)) = read else {
                panic!("only accepted bytes have an answer");
            };
            let answer = self.answers.answer(&settings_read, &tree_read);
            self.last = Last::new(settings, tree, answer);
        }
        &self.last.as_ref().expect("an answer was kept").kept
    }

    /// The sheet, or 1 to 6.
    fn sheet_of(&mut self, settings: &[u8], tree: &[u8]) -> Result<&Sheet, u8> {
        if !Last::is_of(&self.sheet, settings, tree) {
            let sheet = judge::shown(settings, tree).map(|read| {
                self.accepted(settings, tree);
                let answer = &self.last.as_ref().expect("an answer was kept").kept;
                let owners = self.answers.owners(&read.settings, &read.tree, answer);
                Sheet { read, owners }
            });
            self.sheet = Last::new(settings, tree, sheet);
        }
        let sheet = &self.sheet.as_ref().expect("a sheet was kept").kept;
        sheet.as_ref().map_err(|&number| number)
    }

    /// The list with its folds, or 1 to 5 or 15.
    fn list_of(&mut self, settings: &[u8], tree: &[u8]) -> Result<&List, u8> {
        if !Last::is_of(&self.list, settings, tree) {
            let list = judge::read(settings, tree).and_then(|read| {
                let folds = self.answers.folds(&read.settings, read.cells()?);
                Ok(List { read, folds })
            });
            self.list = Last::new(settings, tree, list);
        }
        let list = &self.list.as_ref().expect("a list was kept").kept;
        list.as_ref().map_err(|&number| number)
    }

    /// The letters that widen a sheet, for bytes that the judge has accepted.
    fn needs_of(&mut self, settings: &[u8], tree: &[u8]) -> &[Need] {
        if !Last::is_of(&self.needs, settings, tree) {
            let read = judge::read(settings, tree).expect("only accepted bytes have needs");
            let needs = self.answers.needs(&read.settings, &read.tree);
            self.needs = Last::new(settings, tree, needs);
        }
        &self.needs.as_ref().expect("needs were kept").kept
    }
}

fn narrow(number: usize) -> u16 {
    u16::try_from(number).expect("a size has 16 bits")
}

/// The bytes at the front of a lent output, and their count.
fn write(bytes: &[u8], output: &mut [u8]) -> Counted {
    output[..bytes.len()].copy_from_slice(bytes);
    Counted {
        number: 0,
        count: bytes.len(),
    }
}

/// The store as a call leaves it, and the call's number.
fn keep(store: &mut [u8], after: Result<Vec<u8>, u8>) -> u8 {
    match after {
        Ok(after) => {
            store.copy_from_slice(&after);
            0
        }
        Err(number) => number,
    }
}

impl<A: Answers> Calls for Side<A> {
    fn read_settings(&mut self, settings: &[u8]) -> ReadSettings {
        match judge::read_settings(settings) {
            Ok(settings) => ReadSettings {
                number: 0,
                settings,
            },
            Err(number) => ReadSettings {
                number,
                settings: Settings::BLANK,
            },
        }
    }

    fn read_margin(&mut self, settings: &[u8]) -> ReadMargin {
        let ReadSettings { number, settings } = self.read_settings(settings);
        ReadMargin {
            number,
            margin: settings.margin,
        }
    }

    fn read_tree(&mut self, tree: &[u8]) -> Counted {
        match judge::read_tree(tree) {
            Ok(tree) => Counted {
                number: 0,
                count: tree.nodes(),
            },
            Err(number) => Counted { number, count: 0 },
        }
    }

    fn sizes(&mut self, settings: &[u8], tree: &[u8], list: &mut [SizeRecord]) -> Counted {
        let number = judge::sizes(settings, tree, list.len());
        if number != 0 {
            return Counted { number, count: 0 };
        }
        let sizes = &self.accepted(settings, tree).sizes;
        for (entry, size) in list.iter_mut().zip(sizes) {
            *entry = SizeRecord {
                natural_width: narrow(size.natural_width),
                natural_height: narrow(size.natural_height),
                allotted_width: narrow(size.allotted_width),
                allotted_height: narrow(size.allotted_height),
                below: narrow(size.below),
            };
        }
        Counted {
            number: 0,
            count: sizes.len(),
        }
    }

    fn leaf_record(&mut self, settings: &[u8], tree: &[u8], node: usize) -> LeafRecord {
        let number = judge::leaf_record(settings, tree, node);
        if number != 0 {
            return LeafRecord {
                number,
                node: 0,
                width: 0,
                height: 0,
                horizontal: SplitList::EMPTY,
                vertical: SplitList::EMPTY,
                flags: Flags::default(),
                pair: CutPair::default(),
            };
        }
        let mut leaves = self.accepted(settings, tree).leaves.iter();
        let leaf = leaves
            .find(|leaf| leaf.node == node)
            .expect("the number names a leaf");
        LeafRecord {
            number: 0,
            node,
            width: narrow(leaf.width),
            height: narrow(leaf.height),
            horizontal: SplitList::new(&leaf.horizontal),
            vertical: SplitList::new(&leaf.vertical),
            flags: leaf.flags,
            pair: leaf.pair,
        }
    }

    fn leaf(&mut self, settings: &[u8], tree: &[u8], node: usize, output: &mut [u8]) -> Counted {
        let number = judge::leaf(settings, tree, node, output.len());
        if number != 0 {
            return Counted { number, count: 0 };
        }
        let mut leaves = self.accepted(settings, tree).leaves.iter();
        let leaf = leaves
            .find(|leaf| leaf.node == node)
            .expect("the number names a leaf");
        write(&leaf.block, output)
    }

    fn sheet(&mut self, settings: &[u8], tree: &[u8], output: &mut [u8]) -> Counted {
        let number = judge::sheet(settings, tree, output.len());
        if number != 0 {
            return Counted { number, count: 0 };
        }
        write(&self.accepted(settings, tree).sheet, output)
    }

    fn place(&mut self, settings: &[u8], tree: &[u8], line: usize, column: usize) -> LeafPlace {
        let sheet = self.sheet_of(settings, tree);
        match sheet.and_then(|sheet| sheet.place(line, column)) {
            Ok(Owner { node, line, column }) => LeafPlace {
                number: 0,
                node,
                line,
                column,
            },
            Err(number) => LeafPlace {
                number,
                ..LeafPlace::default()
            },
        }
    }

    fn places(
        &mut self,
        settings: &[u8],
        tree: &[u8],
        places: &[(usize, usize)],
        answers: &mut [Owner],
    ) -> Marked {
        let sheet = self.sheet_of(settings, tree);
        match sheet.and_then(|sheet| sheet.places(places, answers)) {
            Ok((count, read)) => Marked {
                number: 0,
                count,
                read,
            },
            Err(number) => Marked {
                number,
                ..Marked::default()
            },
        }
    }

    fn fold(
        &mut self,
        settings: &[u8],
        tree: &[u8],
        width: usize,
        budget: usize,
        columns: &mut [u16],
    ) -> Folded {
        let list = self.list_of(settings, tree);
        list.and_then(|list| list.fold(width, budget, columns))
            .unwrap_or_else(|number| Folded {
                number,
                ..Folded::default()
            })
    }

    fn plan(&mut self, settings: &[u8], tree: &[u8]) -> Planned {
        match planning::read(settings, tree) {
            Ok((settings, plan)) => Planned {
                number: 0,
                ends: self.answers.ends(&settings, &plan),
            },
            Err(number) => Planned {
                number,
                ..Planned::default()
            },
        }
    }

    fn widen(
        &mut self,
        settings: &[u8],
        tree: &[u8],
        nodes: &mut [u16],
        letters: &mut [u32],
    ) -> Counted {
        let number = judge::widen(settings, tree, nodes.len(), letters.len());
        if number != 0 {
            return Counted { number, count: 0 };
        }
        let needs = self.needs_of(settings, tree);
        for ((node, number), need) in nodes.iter_mut().zip(letters).zip(needs) {
            *node = narrow(need.node);
            *number = u32::try_from(need.letters).expect("a number of letters has 32 bits");
        }
        Counted {
            number: 0,
            count: needs.len(),
        }
    }

    fn save_draft(&mut self, store: &mut [u8], name: u8, tree: &[u8]) -> u8 {
        keep(store, drafting::save(store, name, tree))
    }

    fn forget_draft(&mut self, store: &mut [u8], name: u8) -> u8 {
        keep(store, drafting::forget(store, name))
    }

    fn return_draft(&mut self, store: &[u8], name: u8, output: &mut [u8]) -> Counted {
        match drafting::returned(store, name, output.len()) {
            Ok(tree) => write(&tree, output),
            Err(number) => Counted { number, count: 0 },
        }
    }

    fn blank(&mut self, tree: &[u8], nodes: &[u16], output: &mut [u8]) -> Counted {
        match blanking::blanked(tree, nodes, output.len()) {
            Ok(tree) => write(&tree, output),
            Err(number) => Counted { number, count: 0 },
        }
    }

    fn read_typed(&mut self, list: &[u8], output: &mut [u8]) -> Typed {
        match typing::read_into(list, output.len()) {
            Ok(tree) => Typed {
                count: write(&tree, output).count,
                ..Typed::default()
            },
            Err(Fault {
                number,
                line,
                column,
            }) => Typed {
                number,
                count: 0,
                line,
                column,
            },
        }
    }

    fn short_splits3(&mut self, list: &SplitList, width: u16) -> CutParts {
        let number = judge::cut(list.count);
        if number != 0 {
            return CutParts {
                number,
                split: false,
                pair: CutPair::default(),
                taken: SplitList::EMPTY,
                left: SplitList::EMPTY,
            };
        }
        let cut = self.answers.cut3(&list.list(), width.into());
        CutParts {
            number: 0,
            split: cut.yes,
            pair: cut.pair,
            taken: SplitList::new(&cut.taken),
            left: SplitList::new(&cut.left),
        }
    }

    fn short_splits(&mut self, list: &SplitList, width: u16) -> CutPositions {
        let mut answer = CutPositions {
            number: judge::cut(list.count),
            positions: [0; judge::PIECES],
            count: 0,
            left: SplitList::EMPTY,
        };
        if answer.number == 0 {
            let cut = self.answers.cut(&list.list(), width.into());
            answer.count = cut.positions.len();
            answer.left = SplitList::new(&cut.left);
            for (place, &at) in answer.positions.iter_mut().zip(&cut.positions) {
                *place = u32::try_from(at).expect("a position has 32 bits");
            }
        }
        answer
    }

    fn share(&mut self, spare: usize, n: usize, priority: u8, index: usize) -> Shared {
        let number = judge::share(n, index);
        if number != 0 {
            return Shared { number, part: 0 };
        }
        Shared {
            number: 0,
            part: self.answers.part(spare, n, priority, index),
        }
    }
}
