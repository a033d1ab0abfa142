//! The calls on drafts by the document's steps, with one of them gone wrong: faults 110 to 131, each named where it is made. Those without lines are in `lines`, those of
//! blanked texts in `blanks`, those of typed lists in `typed`.

pub mod blanks;
pub mod lines;
pub mod typed;

use oracle::drafting::{encode_store, read_store, Draft, NAMES};
use oracle::judge;

/// The bytes that drafts take.
fn taken(drafts: &[Draft]) -> usize {
    drafts.iter().map(|draft| 3 + draft.tree.len()).sum()
}

/// The store as a reader sees it that lets a fault pass: tag 28, or 1F, taken for its neighbour; a name a second time, and all behind it, not looked at; a length past the
/// end cut; bytes behind the first zero not looked at.
fn seen(fault: u8, store: &[u8]) -> Vec<u8> {
    let mut store = store.to_vec();
    let mut tags = Vec::new();
    let mut at = 0;
    while let [tag @ 1..=255, high, low, ..] = store[at..] {
        let length = usize::from(high) * 256 + usize::from(low);
        let left = store.len() - at - 3;
        match fault {
            110 if tag == 0x28 => store[at] = 0x27,
            111 if tag == 0x1F => store[at] = 0x20,
            112 if tags.contains(&tag) => store[at..].fill(0),
            113 if length > left => {
                store[at + 1..at + 3].copy_from_slice(&(left as u16).to_be_bytes());
            }
            _ => {}
        }
        tags.push(tag);
        at = (at + 3 + length).min(store.len());
    }
    if fault == 114 && store[at..].first() == Some(&0) {
        store[at..].fill(0);
    }
    store
}

/// A name of A to H; with a fault also I, or a small letter.
fn named(fault: u8, name: u8) -> Result<u8, u8> {
    match name {
        b'I' if fault == 115 => Ok(b'H'),
        b'a'..=b'h' if fault == 116 => Ok(name - 32),
        _ => NAMES.contains(&name).then_some(name).ok_or(19),
    }
}

/// The store after a save, or its number.
pub fn save(fault: u8, store: &[u8], name: u8, tree: &[u8]) -> Result<Vec<u8>, u8> {
    // 19 before 18; the tree's own before both.
    if fault == 117 {
        named(fault, name)?;
    }
    if fault == 118 {
        judge::read_tree(tree)?;
    }
    let drafts = read_store(&seen(fault, store))?;
    let name = named(fault, name)?;
    // The older draft counted; a save that just fits refused.
    let others = drafts
        .iter()
        .filter(|draft| draft.name != name || fault == 119);
    let taken: usize = others.map(|draft| 3 + draft.tree.len()).sum();
    let is_short = taken + 3 + tree.len() + usize::from(fault == 120) > store.len();
    // 20 before the tree's own; a tree that is not read.
    if fault == 121 && is_short {
        return Err(20);
    }
    if fault != 122 {
        judge::read_tree(tree)?;
    }
    if is_short {
        return Err(20);
    }
    Ok(put(fault, store, drafts, name, tree))
}

/// The store with a draft that has room there.
fn put(fault: u8, store: &[u8], mut drafts: Vec<Draft>, name: u8, tree: &[u8]) -> Vec<u8> {
    let all = taken(&drafts);
    let tree = tree.to_vec();
    match drafts.iter().position(|draft| draft.name == name) {
        // The new draft in the older one's place.
        Some(at) if fault == 123 => drafts[at].tree = tree,
        _ => {
            drafts.retain(|draft| draft.name != name);
            drafts.push(Draft { name, tree });
        }
    }
    let mut after = encode_store(&drafts, store.len());
    let used = taken(&drafts);
    // What a shorter draft frees left as it was.
    if fault == 124 && used < all {
        after[used..all].copy_from_slice(&store[used..all]);
    }
    after
}

/// The store after a draft was forgotten, or the number.
pub fn forget(fault: u8, store: &[u8], name: u8) -> Result<Vec<u8>, u8> {
    let mut drafts = read_store(&seen(fault, store))?;
    let name = named(fault, name)?;
    let Some(at) = drafts.iter().position(|draft| draft.name == name) else {
        // A name that was not saved is let pass.
        return if fault == 125 {
            Ok(store.to_vec())
        } else {
            Err(19)
        };
    };
    let start = taken(&drafts[..at]);
    let gap = start..start + taken(&drafts[at..=at]);
    drafts.remove(at);
    let mut after = encode_store(&drafts, store.len());
    // The gap left, as zero bytes.
    if fault == 126 {
        after.copy_from_slice(store);
        after[gap].fill(0);
    }
    Ok(after)
}

/// The count answered, beside the buffer after the call; or the number.
pub fn return_to(fault: u8, store: &[u8], name: u8, output: &mut [u8]) -> Result<usize, u8> {
    let drafts = read_store(&seen(fault, store))?;
    let name = named(fault, name)?;
    let Some(draft) = drafts.iter().find(|draft| draft.name == name) else {
        // 8 before 19.
        let is_short = fault == 127 && output.is_empty();
        return Err(if is_short { 8 } else { 19 });
    };
    let count = draft.tree.len();
    // A field that is no tree refused.
    if fault == 128 && judge::read_tree(&draft.tree).is_err() {
        return Err(18);
    }
    let Some(copied) = output.get_mut(..count) else {
        // A beginning copied beside 8.
        let length = if fault == 129 { output.len() } else { 0 };
        output[..length].copy_from_slice(&draft.tree[..length]);
        return Err(8);
    };
    copied.copy_from_slice(&draft.tree);
    // The bytes past the tree cleared; the tag and the length counted.
    if fault == 130 {
        output[count..].fill(0);
    }
    Ok(if fault == 131 { count + 3 } else { count })
}
