//! Alike trees (document 02, 14), stores that keep them, and the numbers of Cells to blank.

use super::stores::{drafts, name, taken};
use super::{
    damaged, fold_list, near, other_list, plan, table, tree, wide_table, Growth, Limit, Margins,
    Rng, LIMITS,
};
use crate::drafting::{encode_store, Draft};
use crate::form::{encode_plan, encode_settings, encode_tree, Plan, Range, Settings, Tree};
use crate::judge;
use crate::widening;

/// Settings, and two trees that are alike: a key, and another instead of it.
#[derive(Debug, Clone, PartialEq, Eq)]
pub struct Alike {
    pub settings: Vec<u8>,
    pub trees: [Vec<u8>; 2],
}

/// A tree as a planning tree without a range.
fn plan_of(tree: &Tree) -> Plan {
    Plan::of(tree, &mut |text| Plan::Cell(text.to_vec()))
}

/// Other bytes instead of a text's: dots, blanks, bytes that look like marks, or any. Line feeds stay.
fn rewrite(rng: &mut Rng, text: &mut [u8], kind: usize, one_in: usize) {
    for byte in text.iter_mut().filter(|byte| **byte != 0x0A) {
        if rng.one_in(one_in) {
            *byte = match kind {
                0 => b'.',
                1 => b' ',
                2 => rng.pick(b" ~.|-+\\"),
                _ => rng.between(0x20, 0x7E) as u8,
            };
        }
    }
}

/// A planning tree that is alike: other bytes in all of its texts or in some, in all places of a text or in some.
pub fn other(rng: &mut Rng, plan: &Plan) -> Plan {
    let mut plan = plan.clone();
    let kind = rng.below(4);
    let (texts, letters) = rng.pick(&[(1, 1), (1, 1), (2, 1), (1, 9), (6, 1)]);
    for cell in plan.cells_mut() {
        if let Plan::Cell(text) = cell {
            if rng.one_in(texts) {
                rewrite(rng, text, kind, letters);
            }
        }
    }
    plan
}

/// Settings and a planning tree with one that is alike.
pub fn alike(rng: &mut Rng, settings: &Settings, plan: &Plan) -> Alike {
    let trees = [encode_plan(plan), encode_plan(&other(rng, plan))];
    let settings = encode_settings(settings);
    Alike { settings, trees }
}

/// The same of a tree.
pub fn alike_trees(rng: &mut Rng, settings: &Settings, tree: &Tree) -> Alike {
    alike(rng, settings, &plan_of(tree))
}

/// The same for a tree that is exactly this far from a limit.
pub fn near_alike(rng: &mut Rng, limit: Limit, offset: isize) -> Alike {
    let (settings, tree) = near(rng, Margins::Half, limit, offset);
    alike_trees(rng, &settings, &tree)
}

/// A planning tree, at times with a range in it that is none.
fn any_plan(rng: &mut Rng) -> (Settings, Plan) {
    let (settings, mut plan) = plan(rng);
    let bad = Plan::Range(Range {
        width: rng.pick(&[[3, 2], [0, 0], [255, 254]]),
        lines: rng.pick(&[[1, 1], [0, 1], [2, 1]]),
    });
    let mut cells = plan.cells_mut();
    if rng.one_in(3) && !cells.is_empty() {
        let at = rng.below(cells.len());
        *cells[at] = bad;
    }
    (settings, plan)
}

/// A list to fold, or a tree that is close to one.
fn list(rng: &mut Rng) -> (Settings, Tree) {
    let (settings, list) = fold_list(rng);
    if rng.one_in(3) {
        return (settings, other_list(rng, &list));
    }
    (settings, list)
}

/// Alike trees of any kind, at times behind settings with a fault.
pub fn any_alike(rng: &mut Rng) -> Alike {
    let (settings, plan) = match rng.below(16) {
        0 => {
            let (limit, offset) = (rng.pick(&LIMITS), rng.between(0, 4) as isize - 2);
            let (settings, tree) = near(rng, Margins::Half, limit, offset);
            (settings, plan_of(&tree))
        }
        1..=4 => {
            let (settings, tree) = list(rng);
            (settings, plan_of(&tree))
        }
        5..=8 => any_plan(rng),
        9 => {
            let (settings, tree) = wide_table(rng);
            (settings, plan_of(&tree))
        }
        _ => {
            let (settings, tree) = table(rng, Margins::Half);
            (settings, plan_of(&tree))
        }
    };
    let mut alike = alike(rng, &settings, &plan);
    if rng.one_in(16) {
        alike.settings = damaged(rng, &alike.settings);
    }
    alike
}

/// Two alike trees to save: mostly of a few nodes, at times with a range, or with about as many nodes as there may be, or as deep.
pub fn drafted(rng: &mut Rng) -> [Vec<u8>; 2] {
    let plan = match rng.below(16) {
        0 => any_plan(rng).1,
        1 => {
            let limit = rng.pick(&[Limit::Nodes, Limit::Depth]);
            let offset = rng.between(0, 4) as isize - 2;
            plan_of(&near(rng, Margins::None, limit, offset).1)
        }
        _ => {
            let nodes = rng.pick(&[1, 1, 2, 4, 9]);
            let growth = Growth { width: 5, lines: 2 };
            plan_of(&tree(rng, nodes, judge::DEPTH, growth))
        }
    };
    alike(rng, &Settings::M, &plan).trees
}

/// A call of a series on two stores whose drafts are alike.
#[derive(Debug, Clone, PartialEq, Eq)]
pub enum Call {
    Save(u8, [Vec<u8>; 2]),
    Forget(u8),
    /// With this many bytes lent.
    Return(u8, usize),
}

/// A call: two saves for each forgetting, and for each return.
pub fn call(rng: &mut Rng) -> Call {
    let name = name(rng);
    match rng.below(4) {
        0 => Call::Forget(name),
        1 => Call::Return(name, rng.pick(&[0, 3, 8, 20, 60, 3000])),
        _ => Call::Save(name, drafted(rng)),
    }
}

/// The same fault in both stores, which have such drafts and this many zero bytes behind them: another tag, a name twice, a zero byte before a field, a byte behind the zeros, an
/// end too early.
fn spoil(rng: &mut Rng, drafts: &[Draft], zeros: usize, stores: &mut [Vec<u8>; 2]) {
    let used = taken(drafts);
    let front = taken(&drafts[..rng.below(drafts.len())]);
    let other = taken(&drafts[..rng.below(drafts.len())]);
    let (kind, tag) = (rng.below(5), rng.pick(&[0x1F, 0x28, 0x01, 0x60, 0xFF]));
    let end = rng.between(front, used - 1);
    for store in stores {
        match kind {
            0 => store[front] = tag,
            1 => store[front] = store[other],
            2 => store.insert(front, 0),
            3 if zeros > 0 => store[used + zeros - 1] = tag,
            _ => store.truncate(end),
        }
    }
}

/// Two stores whose drafts are alike, mostly of the right form. Bytes that are no tree are the same in both.
pub fn stores(rng: &mut Rng) -> [Vec<u8>; 2] {
    let drafts = drafts(rng);
    let zeros = rng.pick(&[0, 0, 1, 3, 6, 9, 40]);
    let others = drafts.iter().map(|draft| {
        let tree = match judge::read_tree(&draft.tree) {
            Ok(tree) => encode_plan(&other(rng, &plan_of(&tree))),
            Err(_) => draft.tree.clone(),
        };
        Draft {
            name: draft.name,
            tree,
        }
    });
    let others: Vec<Draft> = others.collect();
    let length = taken(&drafts) + zeros;
    let mut stores = [&drafts, &others].map(|drafts| encode_store(drafts, length));
    if rng.one_in(4) && !drafts.is_empty() {
        spoil(rng, &drafts, zeros, &mut stores);
    }
    stores
}

/// A number that names no Cell of a tree: of a group, past the last node, or a Cell's in its lower 8 bits or with its highest bit.
fn no_cell(rng: &mut Rng, tree: &Tree, cells: &[usize]) -> u16 {
    let nodes = tree.nodes();
    let groups = (0..nodes).filter(|node| !cells.contains(node));
    let groups: Vec<usize> = groups.collect();
    let cell = cells.first().copied().unwrap_or(0);
    let far = [nodes, nodes + 1, 512, 65_535, cell + 512, cell + 0x8000];
    let number = if groups.is_empty() || rng.one_in(2) {
        rng.pick(&far)
    } else {
        rng.pick(&groups)
    };
    number as u16
}

/// Numbers of Cells to blank: none, or some of the tree's in any order, repeats among them, at times more than there are nodes; in a third of the lists one names no Cell.
pub fn cells(rng: &mut Rng, tree: &[u8]) -> Vec<u16> {
    let Ok(tree) = judge::read_tree(tree) else {
        return rng.pick(&[vec![], vec![0], vec![1, 0], vec![65_535]]);
    };
    let cells = widening::cells(&tree);
    let few = rng.between(1, 5);
    let count = rng.pick(&[0, 1, few, few, cells.len(), 2 * cells.len(), 700]);
    if cells.is_empty() {
        return (0..count).map(|_| no_cell(rng, &tree, &cells)).collect();
    }
    let mut list: Vec<u16> = (0..count).map(|_| rng.pick(&cells) as u16).collect();
    if rng.one_in(3) && count > 0 {
        let at = rng.below(count);
        list[at] = no_cell(rng, &tree, &cells);
    }
    list
}

/// As many Cells as there may be, and one more; Cells at every depth; a Cell of every byte that a text may have, over and over, as many as a tree may have.
pub fn great_trees() -> Vec<Tree> {
    let row = |cells: usize| Tree::Row(vec![Tree::cell("a\nb"); cells]);
    let deep = (1..judge::DEPTH).fold(Tree::cell("deep"), |inner, _| {
        Tree::Column(vec![Tree::cell("x"), inner, Tree::Row(vec![])])
    });
    let every = (0x20..=0x7E).chain([0x0A]).cycle();
    let long = Tree::Cell(every.take(judge::TREE_BYTES - 3).collect());
    vec![row(judge::NODES - 1), row(judge::NODES), deep, long]
}

/// The bytes of a tree for the call that blanks, at times with a fault.
pub fn any_tree(rng: &mut Rng) -> Vec<u8> {
    let (_, tree) = match rng.below(8) {
        0 => {
            let (limit, offset) = (rng.pick(&LIMITS), rng.between(0, 4) as isize - 2);
            near(rng, Margins::None, limit, offset)
        }
        _ => table(rng, Margins::None),
    };
    let tree = encode_tree(&tree);
    if rng.one_in(3) {
        return damaged(rng, &tree);
    }
    tree
}
