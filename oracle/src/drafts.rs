//! Drafts as lines (document 02, 12). A line `=` gives a store, `:` a tree; each call leaves its store to the next. A name is a number.
//!   s NAME, NUMBER, STORE                  the tree saved, and the store afterwards
//!   f NAME, NUMBER, STORE                  a draft forgotten
//!   r NAME ROOM, NUMBER COUNT, BYTES       a draft returned to, and the bytes copied

use crate::drafting::{read_store, NAMES};
use crate::gen::stores;
use crate::gen::Rng;
use crate::lines::Lines;

/// The longest tree or store, so that a line stays short.
const TREE: usize = 12;
const STORE: usize = 32;

/// The names of a series: few, so that drafts are dropped and gaps closed.
const FEW: [u8; 3] = *b"AEH";

/// A short tree, mostly a good one.
fn short_tree(rng: &mut Rng) -> Vec<u8> {
    loop {
        let tree = stores::tree_bytes(rng);
        if tree.len() <= TREE {
            return tree;
        }
    }
}

/// This many calls, each on the store that the call before has left, the first on this many zero bytes; after each third one a return to one of the names, and in the end
/// to each, and to one that was never saved.
fn series(lines: &mut Lines, rng: &mut Rng, length: usize, calls: usize) {
    lines.title(&format!("A series of calls from {length} zero bytes"));
    let mut store = vec![0; length];
    for at in 0..calls {
        let name = rng.pick(&FEW);
        store = if rng.one_in(4) {
            lines.forget(&store, name)
        } else {
            lines.save(&store, name, &short_tree(rng))
        };
        if at % 3 == 2 {
            lines.return_to(&store, rng.pick(&FEW), rng.between(2, TREE));
        }
    }
    for name in FEW.into_iter().chain([b'B']) {
        lines.return_to(&store, name, TREE);
    }
}

/// Every kind of fault of a store, and what is close to one; a call of each kind.
fn forms(lines: &mut Lines) {
    lines.title("Stores of the form and others");
    let stores: [&[u8]; 18] = [
        b"",
        b"\x00",
        b"\x20",
        b"\x20\x00",
        b"\x20\x00\x00",
        b"\x20\x00\x01",
        b"\x20\x01\x00\x00",
        b"\x1F\x00\x00",
        b"\x28\x00\x00",
        b"\x01\x00\x00",
        b"\x00\x20\x00\x00",
        b"\x20\x00\x00\x01",
        b"\x20\x00\x00\x00\x00\x01",
        b"\x20\x00\x00\x20\x00\x00",
        b"\x20\x00\x01\x00\x21\x00\x00\x20\x00\x00",
        b"\x27\x00\x02\xFF\x00\x20\x00\x00\x00",
        b"\x20\x00\x03\x20\x00\x00\x27\x00\x00\x21\x00\x02\x20\x27",
        b"\x20\x00\x00\x21\x00\x00\x22\x00\x00\x23\x00\x00\x24\x00\x00\x25\x00\x00\x26\x00\x00\x27\x00\x00",
    ];
    for store in stores {
        lines.save(store, b'A', b"\x02\x00\x00");
        lines.forget(store, b'A');
        lines.return_to(store, b'H', 2);
    }
}

/// Each number before those that come after it.
fn orders(lines: &mut Lines) {
    lines.title("Orders");
    let (bad, good) = (b"\x01", b"\x20\x00\x03\x02\x00\x00\x00");
    let fault = b"\x01\x00\x01\x07";
    for name in [b'@', b'A', b'B', b'I', b'a', 0xC1] {
        lines.save(bad, name, fault);
        lines.save(good, name, fault);
        lines.save(good, name, b"\x01\x00\x02xy");
        for store in [&bad[..], good] {
            lines.forget(store, name);
            lines.return_to(store, name, 0);
        }
    }
    for tree in [&b""[..], b"\x01\x00\x00", b"\x01\x00\x01x"] {
        lines.save(good, b'A', tree);
    }
    for length in [2, 3, 4] {
        lines.return_to(good, b'A', length);
    }
}

/// A name, one of the store's where it has drafts.
fn name_of(rng: &mut Rng, store: &[u8]) -> u8 {
    match read_store(store).as_deref() {
        Ok(drafts @ [_, ..]) => drafts[rng.below(drafts.len())].name,
        _ => rng.pick(&NAMES),
    }
}

/// This many stores of the right form and this many with a fault, as a rule: a call that writes, and a return.
fn random_stores(lines: &mut Lines, rng: &mut Rng, many: usize) {
    lines.title("Random stores");
    let kinds = [stores::store, stores::damaged_store];
    for kind in kinds.into_iter().cycle().take(2 * many) {
        let store = loop {
            let store = kind(rng);
            if (9..=STORE).contains(&store.len()) {
                break store;
            }
        };
        let name = name_of(rng, &store);
        if rng.one_in(2) {
            lines.forget(&store, name);
        } else {
            lines.save(&store, name, &short_tree(rng));
        }
        lines.return_to(&store, name, rng.between(3, TREE));
    }
}

/// The lines, about 200 calls.
pub fn lines(seed: u64) -> String {
    let mut rng = Rng::new(seed);
    let mut lines = Lines::default();
    for (length, calls) in [(13, 8), (20, 12), (STORE, 16)] {
        series(&mut lines, &mut rng, length, calls);
    }
    forms(&mut lines);
    orders(&mut lines);
    random_stores(&mut lines, &mut rng, 6);
    lines.text
}
