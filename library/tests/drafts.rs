//! Drafts in a lent store (document 02, 12): the calls on bytes, one after the other; the store as a value; what a refusal leaves.

use leg_sheet::calls::{forget_draft, return_draft, save_draft};
use leg_sheet::{Draft, DraftStore, Refusal, Tree};

/// A number, and the store after it or the bytes copied.
type Answer = (u8, Vec<u8>);

/// A save. A refusal leaves the store as it was.
fn saved(store: &[u8], name: u8, tree: &[u8]) -> Answer {
    let mut after = store.to_vec();
    let answer = save_draft(&mut after, name, tree);
    left(store, after, answer)
}

fn forgotten(store: &[u8], name: u8) -> Answer {
    let mut after = store.to_vec();
    let answer = forget_draft(&mut after, name);
    left(store, after, answer)
}

fn left(before: &[u8], after: Vec<u8>, answer: Result<usize, Refusal>) -> Answer {
    match answer {
        Ok(count) => {
            assert_eq!(count, 0);
            (0, after)
        }
        Err(refusal) => {
            assert_eq!(after, before);
            (refusal.number(), after)
        }
    }
}

/// The number and the bytes copied, with this many lent; those past them stay.
fn returned(store: &[u8], name: u8, length: usize) -> Answer {
    let mut out = vec![0xA5; length];
    let answer = return_draft(store, name, &mut out);
    let rest = out.split_off(answer.unwrap_or(0));
    assert!(rest.iter().all(|&byte| byte == 0xA5));
    (answer.map_or_else(Refusal::number, |_| 0), out)
}

/// A store of 20 bytes, one call after the other.
#[test]
fn a_series() {
    let a = b"\x20\x00\x04\x01\x00\x01a\x00\x00\x00\x00\x00\x00\x00\x00\x00\x00\x00\x00\x00";
    let ab = b"\x20\x00\x04\x01\x00\x01a\x21\x00\x03\x01\x00\x00\x00\x00\x00\x00\x00\x00\x00";
    let ba = b"\x21\x00\x03\x01\x00\x00\x20\x00\x03\x02\x00\x00\x00\x00\x00\x00\x00\x00\x00\x00";
    let b = b"\x21\x00\x03\x01\x00\x00\x00\x00\x00\x00\x00\x00\x00\x00\x00\x00\x00\x00\x00\x00";
    let bc = b"\x21\x00\x03\x01\x00\x00\x22\x00\x05\x01\x00\x02ab\x00\x00\x00\x00\x00\x00";
    let full = b"\x21\x00\x03\x01\x00\x00\x22\x00\x0B\x01\x00\x08abcdefgh";
    let mut store = vec![0; 20];
    let mut step = |answer: &dyn Fn(&[u8]) -> Answer, number: u8, after: &[u8]| {
        let told = answer(&store);
        assert_eq!(told, (number, after.to_vec()));
        store = told.1;
    };
    step(&|s| saved(s, b'A', b"\x01\x00\x01a"), 0, a);
    step(&|s| saved(s, b'B', b"\x01\x00\x00"), 0, ab);
    step(&|s| saved(s, b'A', b"\x02\x00\x00"), 0, ba);
    step(&|s| saved(s, b'C', b"\x01\x00\x03abc"), 20, ba);
    step(&|s| forgotten(s, b'A'), 0, b);
    step(&|s| saved(s, b'C', b"\x01\x00\x02ab"), 0, bc);
    step(&|s| forgotten(s, b'A'), 19, bc);
    step(&|s| saved(s, b'I', b"\x01\x00\x00"), 19, bc);
    step(&|s| saved(s, b'a', b"\x01\x00\x00"), 19, bc);
    step(&|s| saved(s, b'D', b"\x01\x00\x01\x01"), 3, bc);
    step(&|s| saved(s, b'D', b"\x01\x00\x09abcdefghi"), 20, bc);
    step(&|s| saved(s, b'C', b"\x01\x00\x08abcdefgh"), 0, full);
    step(&|s| saved(s, b'B', b"\x01\x00\x03abc"), 20, full);
    step(&|s| forgotten(s, b'C'), 0, b);
    step(&|s| forgotten(s, b'B'), 0, &[0; 20]);
}

#[test]
fn returns() {
    let store = b"\x21\x00\x04\x01\x00\x01b\x20\x00\x03\x02\x00\x00\x00\x00\x00";
    let b = b"\x01\x00\x01b".to_vec();
    assert_eq!(returned(store, b'B', 4), (0, b.clone()));
    assert_eq!(returned(store, b'B', 9), (0, b));
    assert_eq!(returned(store, b'B', 3), (8, vec![]));
    assert_eq!(returned(store, b'A', 3), (0, b"\x02\x00\x00".to_vec()));
    for (name, length) in [(b'C', 9), (b'C', 0), (b'I', 0), (b'@', 9)] {
        assert_eq!(returned(store, name, length), (19, vec![]));
    }
    assert_eq!(returned(b"\x20\x00\x00", b'A', 0), (0, vec![]));
    let other = returned(b"\x27\x00\x02\xFF\xFF", b'H', 2);
    assert_eq!(other, (0, vec![0xFF; 2]));
}

/// Whatever the name and the tree.
#[test]
fn stores_of_another_form_are_refused() {
    let good: [&[u8]; 5] = [
        b"",
        b"\x00\x00\x00\x00",
        b"\x20\x00\x00",
        b"\x23\x00\x01\xFF\x00",
        b"\x27\x00\x00\x20\x00\x00",
    ];
    let bad: [&[u8]; 7] = [
        b"\x20\x00\x01",
        b"\x20\x00",
        b"\x20\x00\x00\x20\x00\x00",
        b"\x28\x00\x00",
        b"\x1F\x00\x00",
        b"\x00\x20\x00\x00",
        b"\x20\x00\x00\x00\x00\x01",
    ];
    for store in good.iter().chain(&bad) {
        for name in 0..=255 {
            let numbers = [
                saved(store, name, b"").0,
                forgotten(store, name).0,
                returned(store, name, 0).0,
            ];
            let is_bad = bad.contains(store);
            assert!(numbers.iter().all(|&number| (number == 18) == is_bad));
        }
    }
}

#[test]
fn orders() {
    let number = |store: &[u8], name: u8, tree: &[u8]| saved(store, name, tree).0;
    assert_eq!(number(b"\x01", b'@', b""), 18);
    assert_eq!(number(b"\x00\x00", b'@', b""), 19);
    assert_eq!(number(b"\x00\x00", b'A', b""), 2);
    assert_eq!(number(b"\x00\x00", b'A', b"\x01\x00\x01\x01"), 3);
    assert_eq!(number(b"\x00\x00", b'A', b"\x01\x00\x00"), 20);
    assert_eq!(number(&[0; 6], b'A', b"\x01\x00\x00"), 0);
    assert_eq!(number(&[0; 5], b'A', b"\x01\x00\x00"), 20);
}

/// Eight trees of the most bytes: each is there, and one of them makes room for another.
#[test]
fn the_longest_drafts() {
    let tree = |letter: &str| Tree::from(letter.repeat(32_765));
    let mut bytes = vec![0; 8 * (3 + 32_768)];
    let mut store = DraftStore::new(&mut bytes);
    for name in DraftStore::NAMES {
        assert_eq!(store.save(name, &tree("x")), Ok(()));
    }
    assert_eq!(store.free(), Ok(0));
    assert_eq!(store.save(b'D', &tree("y")), Ok(()));
    assert_eq!(store.return_to(b'D'), Ok(tree("y")));
    assert_eq!(store.return_to(b'H'), Ok(tree("x")));
    assert_eq!(store.forget(b'A'), Ok(()));
    assert_eq!(store.free(), Ok(3 + 32_768));
    let longer = Tree::from("x".repeat(32_766));
    assert_eq!(store.save(b'A', &longer), Err(Refusal::BadTree));
    assert_eq!(store.return_to(b'A'), Err(Refusal::NoDraft));
    assert_eq!(store.list().map(|drafts| drafts.len()), Ok(7));
}

/// A store is what it was made from, and lists its drafts by name.
#[test]
fn a_store_is_a_value() {
    let mut bytes = *b"\x27\x00\x02\xFF\xFF\x20\x00\x03\x02\x00\x00\x00\x00";
    let before = bytes;
    let mut store = DraftStore::new(&mut bytes);
    let draft = |name: u8, length: usize| Draft { name, length };
    assert_eq!(store.list(), Ok(vec![draft(b'A', 3), draft(b'H', 2)]));
    assert_eq!(store.free(), Ok(2));
    assert_eq!(store.return_to(b'A'), Ok(Tree::row::<Tree>([])));
    assert_eq!(store.return_bytes(b'H'), Ok(vec![0xFF; 2]));
    assert_eq!(store.return_to(b'H'), Err(Refusal::BadTree));
    let mut out = [0xA5; 4];
    assert_eq!(store.copy_out(b'A', &mut out), Ok(3));
    assert_eq!(out, [2, 0, 0, 0xA5]);
    assert_eq!(store.copy_out(b'A', &mut []), Err(Refusal::TooShort));
    assert_eq!(store.bytes(), before);
    assert_eq!(store.save(b'H', &"".into()), Ok(()));
    let after = b"\x20\x00\x03\x02\x00\x00\x27\x00\x03\x01\x00\x00\x00";
    assert_eq!(bytes, *after);
}

/// 18 and 19 before what is wrong with the tree, also of a value; then its own refusal, then 20.
#[test]
fn values_are_refused_in_the_same_order() {
    let tab = Tree::from("\t");
    let refused = |store: &mut [u8], name: u8, tree: &Tree| {
        let answer = DraftStore::new(store).save(name, tree);
        answer.expect_err("a refusal").number()
    };
    assert_eq!(refused(&mut [1], b'I', &tab), 18);
    assert_eq!(refused(&mut [0], b'I', &tab), 19);
    assert_eq!(refused(&mut [0], b'A', &tab), 3);
    assert_eq!(refused(&mut [0], b'A', &"x".into()), 20);
    let mut bad = [1];
    let store = DraftStore::new(&mut bad);
    assert_eq!(store.list(), Err(Refusal::BadStore));
    assert_eq!(store.free(), Err(Refusal::BadStore));
    assert_eq!(store.return_to(b'A'), Err(Refusal::BadStore));
    let mut none: [u8; 0] = [];
    let store = DraftStore::new(&mut none);
    assert_eq!((store.list(), store.free()), (Ok(vec![]), Ok(0)));
}
