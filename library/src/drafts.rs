//! Drafts that an author can return to.

use crate::calls;
use crate::refusal::Refusal;
use crate::tree::Tree;

/// The bytes of a field's tag and length.
const FRONT: usize = 3;
/// The most bytes of a field's contents: its length has two bytes.
const CONTENTS: usize = 65_535;

/// A draft of a store: its name, and the bytes of its tree.
#[derive(Debug, Clone, Copy, PartialEq, Eq, Hash)]
pub struct Draft {
    /// The letter's byte, from A to H.
    pub name: u8,
    /// How many bytes its tree has.
    pub length: usize,
}

/// A store of up to eight drafts, named A to H, in bytes that the caller lends and keeps. Bytes that are all zero are a store without a draft.
///
/// A draft is a tree, without settings. After any series of saves and forgettings on a store of zero bytes a name gives back the tree of the last accepted save under
/// it, unless it was forgotten since; this is proved, as is every refusal. [`list`](DraftStore::list) and [`free`](DraftStore::free) call the proved function for each name
/// and count up what it answers: no byte of the store is read here.
///
/// ```
/// use leg_sheet::{Draft, DraftStore, Refusal, Tree};
///
/// let mut bytes = [0; 40];
/// let mut store = DraftStore::new(&mut bytes);
/// store.save(b'A', &Tree::row(["a", "b"]))?;
/// store.save(b'B', &"to be named".into())?;
/// assert_eq!(store.return_to(b'A')?, Tree::row(["a", "b"]));
/// assert_eq!(store.list()?, [Draft { name: b'A', length: 11 }, Draft { name: b'B', length: 14 }]);
///
/// assert_eq!(store.save(b'C', &"no room".into()), Err(Refusal::NoRoom));
/// store.forget(b'A')?;
/// assert_eq!(store.return_to(b'A'), Err(Refusal::NoDraft));
/// store.save(b'C', &"room".into())?;
/// assert_eq!(store.free()?, 13);
/// # Ok::<(), Refusal>(())
/// ```
#[derive(Debug, PartialEq, Eq)]
pub struct DraftStore<'a> {
    bytes: &'a mut [u8],
}

impl<'a> DraftStore<'a> {
    /// The names of drafts.
    pub const NAMES: [u8; 8] = *b"ABCDEFGH";

    /// The store in these bytes. Every call refuses bytes that are none.
    #[must_use]
    pub fn new(bytes: &'a mut [u8]) -> DraftStore<'a> {
        DraftStore { bytes }
    }

    /// The store's bytes.
    #[must_use]
    pub fn bytes(&self) -> &[u8] {
        self.bytes
    }

    /// Saves a tree under a name: an older draft of that name is dropped.
    ///
    /// # Errors
    /// [`BadStore`](Refusal::BadStore), [`NoDraft`](Refusal::NoDraft), the tree's [`BadTree`](Refusal::BadTree), [`BadText`](Refusal::BadText),
    /// [`TooManyNodes`](Refusal::TooManyNodes), [`TooDeep`](Refusal::TooDeep), [`NoRoom`](Refusal::NoRoom). The older draft stays then.
    pub fn save(&mut self, name: u8, tree: &Tree) -> Result<(), Refusal> {
        self.save_bytes(name, &tree.unread())
    }

    /// Saves the bytes of a tree.
    ///
    /// # Errors
    /// [`BadStore`](Refusal::BadStore), [`NoDraft`](Refusal::NoDraft), the tree's [`BadTree`](Refusal::BadTree), [`BadText`](Refusal::BadText),
    /// [`TooManyNodes`](Refusal::TooManyNodes), [`TooDeep`](Refusal::TooDeep), [`NoRoom`](Refusal::NoRoom). The older draft stays then.
    pub fn save_bytes(&mut self, name: u8, tree: &[u8]) -> Result<(), Refusal> {
        calls::save_draft(self.bytes, name, tree).map(|_| ())
    }

    /// Forgets a draft. Its bytes are free for the next save.
    ///
    /// # Errors
    /// [`BadStore`](Refusal::BadStore), [`NoDraft`](Refusal::NoDraft).
    pub fn forget(&mut self, name: u8) -> Result<(), Refusal> {
        calls::forget_draft(self.bytes, name).map(|_| ())
    }

    /// The tree that was saved under a name.
    ///
    /// # Errors
    /// [`BadStore`](Refusal::BadStore), [`NoDraft`](Refusal::NoDraft); in a store that no call has made also [`BadTree`](Refusal::BadTree), [`BadText`](Refusal::BadText),
    /// [`TooManyNodes`](Refusal::TooManyNodes), [`TooDeep`](Refusal::TooDeep), where there is no tree under the name.
    pub fn return_to(&self, name: u8) -> Result<Tree, Refusal> {
        Tree::from_bytes(&self.return_bytes(name)?)
    }

    /// The bytes of the tree that was saved under a name.
    ///
    /// # Errors
    /// [`BadStore`](Refusal::BadStore), [`NoDraft`](Refusal::NoDraft).
    pub fn return_bytes(&self, name: u8) -> Result<Vec<u8>, Refusal> {
        let mut out = vec![0; self.bytes.len().min(CONTENTS)];
        let count = self.copy_out(name, &mut out)?;
        out.truncate(count);
        Ok(out)
    }

    /// Copies these bytes to a lent buffer and counts them; what is past them stays.
    ///
    /// # Errors
    /// [`BadStore`](Refusal::BadStore), [`NoDraft`](Refusal::NoDraft), [`TooShort`](Refusal::TooShort).
    pub fn copy_out(&self, name: u8, out: &mut [u8]) -> Result<usize, Refusal> {
        calls::return_draft(self.bytes, name, out)
    }

    /// The drafts of the store, by name.
    ///
    /// # Errors
    /// [`BadStore`](Refusal::BadStore).
    pub fn list(&self) -> Result<Vec<Draft>, Refusal> {
        let mut out = vec![0; self.bytes.len().min(CONTENTS)];
        let mut drafts = Vec::new();
        for name in Self::NAMES {
            match self.copy_out(name, &mut out) {
                Ok(length) => drafts.push(Draft { name, length }),
                Err(Refusal::NoDraft) => {}
                Err(refusal) => return Err(refusal),
            }
        }
        Ok(drafts)
    }

    /// The bytes that no draft has. A tree takes three more than its own.
    ///
    /// # Errors
    /// [`BadStore`](Refusal::BadStore).
    pub fn free(&self) -> Result<usize, Refusal> {
        let drafts = self.list()?;
        let used: usize = drafts.iter().map(|draft| FRONT + draft.length).sum();
        Ok(self.bytes.len() - used)
    }
}
