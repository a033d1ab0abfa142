//! Document 02, 14: the comparison of alike trees finds a call whose answer depends on a text's bytes, though both sides have it.

use oracle::calls::{
    Calls, Counted, CutParts, CutPositions, Folded, LeafPlace, LeafRecord, Marked, Planned,
    ReadMargin, ReadSettings, Shared, SizeRecord, SplitList, Typed,
};
use oracle::compare::{Comparison, Difference};
use oracle::gen::{self, Rng};
use oracle::sides::Paper;
use oracle::{encode_plan, encode_tree, planning, Owner, Plan, Settings};

/// A side with one fault: the call that has it, and what is wrong with it.
#[derive(Debug, Default, Clone, Copy, PartialEq, Eq)]
enum Fault {
    #[default]
    None,
    /// A tree with a dot in a text is taken for a Row of it and an empty Cell.
    Seen(&'static str),
    /// What is printed has a blank for each dot; or an `x` for each letter; or, where it has a dot, another last byte.
    Blank(&'static str),
    Letters(&'static str),
    Last(&'static str),
}

#[derive(Debug, Default)]
struct Swayed {
    paper: Paper,
    fault: Fault,
}

/// Whether a text of the planning tree has a dot.
fn has_dot(plan: &Plan) -> bool {
    match plan {
        Plan::Cell(text) => text.contains(&b'.'),
        Plan::Range(_) => false,
        Plan::Row(children) | Plan::Column(children) => children.iter().any(has_dot),
    }
}

impl Swayed {
    /// The tree as a call sees it.
    fn seen(&self, call: &'static str, tree: &[u8]) -> Vec<u8> {
        match planning::read_plan(tree) {
            Ok(plan) if self.fault == Fault::Seen(call) && has_dot(&plan) => {
                encode_plan(&Plan::Row(vec![plan, Plan::Cell(Vec::new())]))
            }
            _ => tree.to_vec(),
        }
    }

    /// Whether the fault shows in a call on a store: its drafts have a dot.
    fn is_swayed(&self, call: &'static str, store: &[u8]) -> bool {
        self.fault == Fault::Seen(call) && store.contains(&b'.')
    }

    /// What a printer leaves.
    fn spoil(&self, call: &'static str, output: &mut [u8]) {
        let has_dot = output.contains(&b'.');
        let replace = |output: &mut [u8], is_one: fn(&u8) -> bool, by: u8| {
            let bytes = output.iter_mut().filter(|byte| is_one(byte));
            bytes.for_each(|byte| *byte = by);
        };
        match self.fault {
            Fault::Blank(other) if other == call => replace(output, |&byte| byte == b'.', b' '),
            Fault::Letters(other) if other == call => replace(output, u8::is_ascii_lowercase, b'x'),
            Fault::Last(other) if other == call && has_dot => output[output.len() - 1] = b'!',
            _ => {}
        }
    }
}

impl Calls for Swayed {
    fn read_settings(&mut self, settings: &[u8]) -> ReadSettings {
        self.paper.read_settings(settings)
    }

    fn read_margin(&mut self, settings: &[u8]) -> ReadMargin {
        self.paper.read_margin(settings)
    }

    fn read_tree(&mut self, tree: &[u8]) -> Counted {
        self.paper.read_tree(&self.seen("tree", tree))
    }

    fn sizes(&mut self, settings: &[u8], tree: &[u8], list: &mut [SizeRecord]) -> Counted {
        let tree = self.seen("sizes", tree);
        self.paper.sizes(settings, &tree, list)
    }

    fn leaf_record(&mut self, settings: &[u8], tree: &[u8], node: usize) -> LeafRecord {
        let tree = self.seen("leaf record", tree);
        self.paper.leaf_record(settings, &tree, node)
    }

    fn leaf(&mut self, settings: &[u8], tree: &[u8], node: usize, output: &mut [u8]) -> Counted {
        let tree = self.seen("leaf", tree);
        let answer = self.paper.leaf(settings, &tree, node, output);
        self.spoil("leaf", &mut output[..answer.count]);
        answer
    }

    fn sheet(&mut self, settings: &[u8], tree: &[u8], output: &mut [u8]) -> Counted {
        let tree = self.seen("sheet", tree);
        let answer = self.paper.sheet(settings, &tree, output);
        self.spoil("sheet", &mut output[..answer.count]);
        answer
    }

    fn place(&mut self, settings: &[u8], tree: &[u8], line: usize, column: usize) -> LeafPlace {
        let tree = self.seen("place", tree);
        self.paper.place(settings, &tree, line, column)
    }

    fn places(
        &mut self,
        settings: &[u8],
        tree: &[u8],
        places: &[(usize, usize)],
        answers: &mut [Owner],
    ) -> Marked {
        let tree = self.seen("places", tree);
        self.paper.places(settings, &tree, places, answers)
    }

    fn fold(
        &mut self,
        settings: &[u8],
        tree: &[u8],
        width: usize,
        budget: usize,
        columns: &mut [u16],
    ) -> Folded {
        let tree = self.seen("fold", tree);
        self.paper.fold(settings, &tree, width, budget, columns)
    }

    fn plan(&mut self, settings: &[u8], tree: &[u8]) -> Planned {
        let tree = self.seen("plan", tree);
        self.paper.plan(settings, &tree)
    }

    fn widen(
        &mut self,
        settings: &[u8],
        tree: &[u8],
        nodes: &mut [u16],
        letters: &mut [u32],
    ) -> Counted {
        let tree = self.seen("widen", tree);
        self.paper.widen(settings, &tree, nodes, letters)
    }

    fn save_draft(&mut self, store: &mut [u8], name: u8, tree: &[u8]) -> u8 {
        let tree = self.seen("save", tree);
        self.paper.save_draft(store, name, &tree)
    }

    fn forget_draft(&mut self, store: &mut [u8], name: u8) -> u8 {
        if self.is_swayed("forget", store) {
            return 19;
        }
        self.paper.forget_draft(store, name)
    }

    fn return_draft(&mut self, store: &[u8], name: u8, output: &mut [u8]) -> Counted {
        let mut answer = self.paper.return_draft(store, name, output);
        if answer.count > 0 && self.is_swayed("return", store) {
            answer.count -= 1;
        }
        answer
    }

    fn blank(&mut self, tree: &[u8], nodes: &[u16], output: &mut [u8]) -> Counted {
        let tree = self.seen("blank", tree);
        let answer = self.paper.blank(&tree, nodes, output);
        self.spoil("blank", &mut output[..answer.count]);
        answer
    }

    fn read_typed(&mut self, list: &[u8], output: &mut [u8]) -> Typed {
        self.paper.read_typed(list, output)
    }

    fn short_splits3(&mut self, list: &SplitList, width: u16) -> CutParts {
        self.paper.short_splits3(list, width)
    }

    fn short_splits(&mut self, list: &SplitList, width: u16) -> CutPositions {
        self.paper.short_splits(list, width)
    }

    fn share(&mut self, spare: usize, n: usize, priority: u8, index: usize) -> Shared {
        self.paper.share(spare, n, priority, index)
    }
}

/// Alike trees on two sides that have the same fault.
fn compared(fault: Fault) -> Result<(), Difference> {
    let side = || Swayed {
        paper: Paper::default(),
        fault,
    };
    let (mut one, mut other) = (side(), side());
    let mut comparison = Comparison::new(&mut one, &mut other);
    let rng = || Rng::new(38);
    comparison.small_alike(&mut rng(), 2, &[Settings::M, Settings::N])?;
    comparison.alike(&mut rng(), 200)?;
    comparison.alike_series(&mut rng(), 40)?;
    comparison.alike_stores(&mut rng(), 100)
}

/// The comparison finds each fault, in the call that has it, and nothing without one.
#[test]
fn answers_that_hang_on_a_text_are_found() {
    assert_eq!(compared(Fault::None), Ok(()));
    let calls = [
        "tree",
        "sizes",
        "leaf record",
        "leaf",
        "sheet",
        "place",
        "places",
        "fold",
        "plan",
        "widen",
        "save",
        "forget",
        "return",
        "blank",
    ];
    for call in calls {
        let found = compared(Fault::Seen(call)).expect_err(call);
        assert_eq!(found.call, format!("alike: {call}"));
    }
    for call in ["leaf", "sheet"] {
        for fault in [Fault::Blank(call), Fault::Letters(call), Fault::Last(call)] {
            let found = compared(fault).expect_err(call);
            assert_eq!(found.call, format!("alike: {call}"));
        }
    }
    let found = compared(Fault::Last("blank")).expect_err("blank");
    assert_eq!(found.call, "alike: blank");
}

/// The fault of these sides is one that no comparison on a tree alone finds: they agree on every tree.
#[test]
fn sides_with_the_same_fault_agree() {
    let side = || Swayed {
        paper: Paper::default(),
        fault: Fault::Seen("sheet"),
    };
    let (mut one, mut other) = (side(), side());
    let mut comparison = Comparison::new(&mut one, &mut other);
    let dotted = gen::small_trees(2, &[".", "a.b"]);
    assert!(dotted.iter().any(|tree| encode_tree(tree).contains(&b'.')));
    for tree in dotted {
        assert_eq!(comparison.table(&Settings::M, &tree), Ok(()));
    }
}
