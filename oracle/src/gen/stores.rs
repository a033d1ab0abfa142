//! Stores of drafts (document 02, 12), trees to save in them, and names.

use super::{damaged, element_like, near, tree, Growth, Limit, Margins, Rng};
use crate::drafting::{encode_store, Draft, FRONT, NAMES};
use crate::form::{encode_element, encode_tree, Tree};
use crate::judge;

/// Bytes beside the names A to H: the neighbours, small letters, the tags, the ends.
const OTHERS: [u8; 12] = [
    0x40, 0x49, b'a', b'h', 0x20, 0x27, 0x00, 0x01, 0x07, 0x08, 0xC1, 0xFF,
];

/// A name, now and then a byte that is none.
pub fn name(rng: &mut Rng) -> u8 {
    if rng.one_in(16) {
        return rng.pick(&OTHERS);
    }
    rng.pick(&NAMES)
}

/// All stores of up to this many bytes, over a few that look like fields.
pub fn short_stores(most: usize) -> impl Iterator<Item = Vec<u8>> {
    const FEW: [u8; 8] = [0x00, 0x01, 0x02, 0x1F, 0x20, 0x21, 0x27, 0x28];
    (0..=most).flat_map(|length| {
        let digit = |number: usize, at: usize| number / FEW.len().pow(at as u32) % FEW.len();
        (0..FEW.len().pow(length as u32))
            .map(move |number| (0..length).map(|at| FEW[digit(number, at)]).collect())
    })
}

/// All rows of up to this many fields out of a few, some of them not of the right form, each with every end: none, zero bytes, beginnings of a field, a byte past the zeros.
pub fn rows(most: usize) -> impl Iterator<Item = Vec<u8>> {
    const FIELDS: [&[u8]; 8] = [
        b"\x20\x00\x00",
        b"\x20\x00\x01\x00",
        b"\x21\x00\x00",
        b"\x21\x00\x03\x02\x00\x00",
        b"\x27\x00\x02\x20\x00",
        b"\x28\x00\x00",
        b"\x1F\x00\x00",
        b"\x00",
    ];
    const ENDS: [&[u8]; 7] = [
        b"",
        b"\x00",
        b"\x00\x00\x00\x00\x00\x00",
        b"\x20",
        b"\x21\x00",
        b"\x22\x00\x01",
        b"\x00\x01",
    ];
    (0..=most).flat_map(|count| {
        let digit = |number: usize, at: usize| number / FIELDS.len().pow(at as u32) % FIELDS.len();
        (0..FIELDS.len().pow(count as u32)).flat_map(move |number| {
            let row: Vec<&[u8]> = (0..count).map(|at| FIELDS[digit(number, at)]).collect();
            ENDS.map(|end| [&row.concat(), end].concat())
        })
    })
}

/// The bytes of a tree of a few nodes.
fn small_tree(rng: &mut Rng) -> Vec<u8> {
    let nodes = rng.pick(&[1, 1, 1, 2, 4, 9]);
    let growth = rng.pick(&[
        Growth { width: 0, lines: 1 },
        Growth { width: 5, lines: 1 },
        Growth {
            width: 40,
            lines: 3,
        },
    ]);
    encode_tree(&tree(rng, nodes, judge::DEPTH, growth))
}

/// The bytes of a tree to save: mostly of a few nodes, at times refused with 2 to 5.
pub fn tree_bytes(rng: &mut Rng) -> Vec<u8> {
    match rng.below(24) {
        0 => element_like(rng),
        1 => {
            let tree = small_tree(rng);
            damaged(rng, &tree)
        }
        2 => encode_element(1, &[rng.pick(b"\x00\x09\x1f\x7f\xff")]),
        3 => {
            let limit = rng.pick(&[Limit::Nodes, Limit::Depth]);
            let offset = rng.between(0, 4) as isize - 2;
            encode_tree(&near(rng, Margins::None, limit, offset).1)
        }
        _ => small_tree(rng),
    }
}

/// What a field of the right form may hold: a tree, or any bytes, or none.
fn contents(rng: &mut Rng) -> Vec<u8> {
    match rng.below(8) {
        0 => Vec::new(),
        1 => (0..rng.between(1, 9)).map(|_| rng.byte()).collect(),
        2 => vec![0; rng.between(1, 9)],
        3 => vec![rng.byte(); rng.pick(&[255, 256, 257, 600])],
        _ => small_tree(rng),
    }
}

/// Up to eight drafts of different names, in any order.
pub fn drafts(rng: &mut Rng) -> Vec<Draft> {
    let mut names = NAMES.to_vec();
    let count = rng.between(0, names.len());
    let mut list = Vec::new();
    for _ in 0..count {
        let name = names.swap_remove(rng.below(names.len()));
        let tree = contents(rng);
        list.push(Draft { name, tree });
    }
    list
}

/// The bytes that drafts take.
pub fn taken(drafts: &[Draft]) -> usize {
    drafts.iter().map(|draft| FRONT + draft.tree.len()).sum()
}

/// A store of the right form, full or with zero bytes at its end.
pub fn store(rng: &mut Rng) -> Vec<u8> {
    let drafts = drafts(rng);
    let zeros = rng.pick(&[0, 0, 1, 2, 3, 5, 6, 7, 20, 400]);
    encode_store(&drafts, taken(&drafts) + zeros)
}

/// A store with a fault, as a rule: another tag, another length, a name twice, a byte past the fields, a zero byte before one, an end too early, or any damage.
pub fn damaged_store(rng: &mut Rng) -> Vec<u8> {
    let drafts = drafts(rng);
    let zeros = rng.pick(&[0, 0, 1, 3, 9]);
    let used = taken(&drafts);
    let mut store = encode_store(&drafts, used + zeros);
    if drafts.is_empty() {
        return damaged(rng, &store);
    }
    let front = taken(&drafts[..rng.below(drafts.len())]);
    match rng.below(8) {
        0 => store[front] = rng.pick(&[0x1F, 0x28, 0x01, 0x41, 0x60, 0xA0, 0xFF]),
        1 => store[front] = store[taken(&drafts[..rng.below(drafts.len())])],
        2 => store[front + 1] = store[front + 1].wrapping_add(rng.pick(&[1, 255])),
        3 => store[front + 2] = store[front + 2].wrapping_add(rng.pick(&[1, 2, 3, 254, 255])),
        4 => store.insert(front, 0),
        5 if zeros > 0 => store[used + rng.below(zeros)] = rng.pick(&[1, 0x20, 0x27, 0x80, 0xFF]),
        6 => store.truncate(rng.between(front, used - 1)),
        _ => store = damaged(rng, &store),
    }
    store
}

/// A store of the right form, or damaged.
pub fn any_store(rng: &mut Rng) -> Vec<u8> {
    match rng.below(3) {
        0 => store(rng),
        _ => damaged_store(rng),
    }
}

/// A tree of exactly this many bytes: a Cell.
fn tree_of(bytes: usize) -> Vec<u8> {
    encode_tree(&Tree::Cell(vec![b'w'; bytes - FRONT]))
}

/// The greatest fields: a store of drafts, a name, and a tree to save under it. Drafts of the most bytes that a tree has, and of the most that a length has; the tree
/// just fits, fits instead of its older draft, is a byte too long, or is refused.
pub fn great_stores() -> Vec<(Vec<u8>, u8, Vec<u8>)> {
    let longest = tree_of(judge::TREE_BYTES);
    let field = FRONT + longest.len();
    let full = |count: usize, tree: &[u8]| {
        let names = NAMES[..count].iter();
        let drafts: Vec<Draft> = names
            .map(|&name| Draft {
                name,
                tree: tree.to_vec(),
            })
            .collect();
        drafts
    };
    let (eight, wide) = (full(8, &longest), full(2, &vec![0xFF; 65_535]));
    let store = |drafts: &[Draft], more: usize| encode_store(drafts, taken(drafts) + more);
    let too_long = encode_element(1, &vec![b'w'; judge::TREE_BYTES]);
    vec![
        (vec![0; field], b'A', longest.clone()),
        (vec![0; field - 1], b'A', longest.clone()),
        (vec![0; 9 * field], b'H', longest.clone()),
        (vec![0; 2 * field], b'C', too_long),
        (store(&eight, 0), b'A', longest.clone()),
        (store(&eight, 0), b'H', tree_of(judge::TREE_BYTES - 1)),
        (store(&eight[1..], field), b'A', longest.clone()),
        (store(&eight[..7], field - 1), b'H', longest.clone()),
        (store(&wide, 0), b'A', longest.clone()),
        (store(&wide, 0), b'C', longest.clone()),
        (store(&wide, field), b'C', longest),
    ]
}

/// A call of a series.
#[derive(Debug, Clone, PartialEq, Eq)]
pub enum Call {
    Save(u8, Vec<u8>),
    Forget(u8),
}

/// The length of a store for a series: for no draft, for one or for a few of them.
pub fn length(rng: &mut Rng) -> usize {
    match rng.below(8) {
        0 => rng.between(0, 8),
        1 => rng.between(300, 3000),
        _ => rng.between(9, 120),
    }
}

/// A call: two saves for each forgetting.
pub fn call(rng: &mut Rng) -> Call {
    if rng.one_in(3) {
        return Call::Forget(name(rng));
    }
    let name = name(rng);
    Call::Save(name, tree_bytes(rng))
}
