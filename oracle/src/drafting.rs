//! Document 02, 12: drafts an author can return to. A store is read into a list of drafts, the list is changed, and the store is written again from it. It follows the
//! document's sentences and shares no code with the port.

use std::collections::BTreeMap;

use crate::judge;

/// 'Up to eight drafts, named A to H.' Any other name is 19.
pub const NAMES: [u8; 8] = *b"ABCDEFGH";

/// 'Fields of hex tag 20 to 27', each name's in the names' order.
const TAGS: [u8; 8] = [0x20, 0x21, 0x22, 0x23, 0x24, 0x25, 0x26, 0x27];

/// The bytes of a field's tag and length.
pub const FRONT: usize = 3;

/// A name, and the bytes that are kept under it: a tree's, where a save has put them there.
#[derive(Debug, Clone, PartialEq, Eq)]
pub struct Draft {
    pub name: u8,
    pub tree: Vec<u8>,
}

/// The draft of the field that the bytes begin with, and the bytes after it. 'The trees inside [are not] read and any length that ends within the store [is] allowed.'
fn field(bytes: &[u8]) -> Option<(Draft, &[u8])> {
    let [tag, high, low, rest @ ..] = bytes else {
        return None;
    };
    let at = TAGS.iter().position(|other| other == tag)?;
    let length = usize::from(*high) * 256 + usize::from(*low);
    let (tree, after) = rest.split_at_checked(length)?;
    let draft = Draft {
        name: NAMES[at],
        tree: tree.to_vec(),
    };
    Some((draft, after))
}

/// The drafts of a store, in its order, or 18: fields 'back to back, each name at most once, then zero bytes to the store's end'.
pub fn read_store(store: &[u8]) -> Result<Vec<Draft>, u8> {
    let mut drafts: Vec<Draft> = Vec::new();
    let mut rest = store;
    while rest.first().is_some_and(|&byte| byte != 0) {
        let (draft, after) = field(rest).ok_or(18)?;
        if drafts.iter().any(|other| other.name == draft.name) {
            return Err(18);
        }
        drafts.push(draft);
        rest = after;
    }
    if rest.iter().any(|&byte| byte != 0) {
        return Err(18);
    }
    Ok(drafts)
}

/// The bytes of a draft's field.
fn encode_draft(draft: &Draft) -> Vec<u8> {
    let at = NAMES.iter().position(|&name| name == draft.name);
    let tag = TAGS[at.expect("a draft has a name")];
    let length = u16::try_from(draft.tree.len()).expect("two bytes have the length");
    [&[tag], &length.to_be_bytes()[..], &draft.tree].concat()
}

/// The store of this many bytes that has these drafts, in this order.
pub fn encode_store(drafts: &[Draft], length: usize) -> Vec<u8> {
    let mut store: Vec<u8> = drafts.iter().flat_map(encode_draft).collect();
    assert!(store.len() <= length, "the drafts fit in the store");
    store.resize(length, 0);
    store
}

/// '19 for a name outside A to H.'
fn named(name: u8) -> Result<(), u8> {
    NAMES.contains(&name).then_some(()).ok_or(19)
}

/// Where the draft of a name is, or 19: the name is none, or 'one returned to or forgotten while not saved'.
fn find(drafts: &[Draft], name: u8) -> Result<usize, u8> {
    named(name)?;
    let at = drafts.iter().position(|draft| draft.name == name);
    at.ok_or(19)
}

/// The store after a save, or 18, 19, the tree's own 2 to 5, 20. 'Saving drops an older draft of that name and puts the new one last'; 'a tree is saved only if the
/// tree reader accepts it'; '20 for a save when the other fields plus 3 plus the tree exceed the store'.
pub fn save(store: &[u8], name: u8, tree: &[u8]) -> Result<Vec<u8>, u8> {
    let mut drafts = read_store(store)?;
    named(name)?;
    judge::read_tree(tree)?;
    drafts.retain(|other| other.name != name);
    let others: usize = drafts.iter().map(|other| FRONT + other.tree.len()).sum();
    if others + FRONT + tree.len() > store.len() {
        return Err(20);
    }
    let tree = tree.to_vec();
    drafts.push(Draft { name, tree });
    Ok(encode_store(&drafts, store.len()))
}

/// The store after a draft was forgotten, or 18, 19. 'Forgetting closes the gap.'
pub fn forget(store: &[u8], name: u8) -> Result<Vec<u8>, u8> {
    let mut drafts = read_store(store)?;
    let at = find(&drafts, name)?;
    drafts.remove(at);
    Ok(encode_store(&drafts, store.len()))
}

/// The tree that is returned to a buffer of this many bytes, or 18, 19, 8: 'a lent tree buffer that is too short is 8, after 19'.
pub fn returned(store: &[u8], name: u8, buffer: usize) -> Result<Vec<u8>, u8> {
    let mut drafts = read_store(store)?;
    let at = find(&drafts, name)?;
    let Draft { tree, .. } = drafts.swap_remove(at);
    if tree.len() > buffer {
        return Err(8);
    }
    Ok(tree)
}

/// What 'any series of these calls alone' leaves, 'from a store of zero bytes' of some length: 'the tree of the last accepted save under that name, not since
/// forgotten'. It knows neither of fields nor of their order.
#[derive(Debug)]
pub struct Series {
    length: usize,
    trees: BTreeMap<u8, Vec<u8>>,
}

impl Series {
    pub fn new(length: usize) -> Series {
        let trees = BTreeMap::new();
        Series { length, trees }
    }

    /// A save, or 19, 2 to 5, 20: 18 never occurs.
    pub fn save(&mut self, name: u8, tree: &[u8]) -> Result<(), u8> {
        named(name)?;
        judge::read_tree(tree)?;
        let others = self.trees.iter().filter(|(&other, _)| other != name);
        let taken: usize = others.map(|(_, other)| FRONT + other.len()).sum();
        if taken + FRONT + tree.len() > self.length {
            return Err(20);
        }
        self.trees.insert(name, tree.to_vec());
        Ok(())
    }

    pub fn forget(&mut self, name: u8) -> Result<(), u8> {
        self.trees.remove(&name).map(|_| ()).ok_or(19)
    }

    pub fn tree(&self, name: u8) -> Result<&[u8], u8> {
        self.trees.get(&name).map(Vec::as_slice).ok_or(19)
    }
}
