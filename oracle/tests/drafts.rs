//! Document 02, 12: drafts in a store, by the document's words.

use oracle::calls::{Calls, Counted};
use oracle::drafting::{self, encode_store, read_store, Draft, Series, NAMES};
use oracle::gen::stores::{self, Call};
use oracle::gen::Rng;
use oracle::sides::Paper;

/// Bytes written in hex.
fn hex(text: &str) -> Vec<u8> {
    let byte = |word: &str| u8::from_str_radix(word, 16).expect("two hex digits");
    text.split_whitespace().map(byte).collect()
}

/// A save as the call makes it: the number, and the store after it, which a refusal leaves.
fn save(store: &[u8], name: u8, tree: &[u8]) -> (u8, Vec<u8>) {
    let mut after = store.to_vec();
    let number = Paper::default().save_draft(&mut after, name, tree);
    assert!(number == 0 || after == store);
    (number, after)
}

fn forget(store: &[u8], name: u8) -> (u8, Vec<u8>) {
    let mut after = store.to_vec();
    let number = Paper::default().forget_draft(&mut after, name);
    assert!(number == 0 || after == store);
    (number, after)
}

/// A return with this many bytes lent: the number, and the bytes copied; those past them stay.
fn return_to(store: &[u8], name: u8, length: usize) -> (u8, Vec<u8>) {
    let mut output = vec![0xA5; length];
    let Counted { number, count } = Paper::default().return_draft(store, name, &mut output);
    assert!(output[count..].iter().all(|&byte| byte == 0xA5));
    output.truncate(count);
    (number, output)
}

/// A store of 20 bytes, one call after the other.
#[test]
fn a_series() {
    let mut store = vec![0; 20];
    let mut step = |call: &str, tree: &str, number: u8, after: &str| {
        let name = call.as_bytes()[call.len() - 1];
        let answer = match &call[..4] {
            "save" => save(&store, name, &hex(tree)),
            _ => forget(&store, name),
        };
        let mut fields = hex(after);
        fields.resize(20, 0);
        assert_eq!(answer, (number, fields), "{call}");
        store = answer.1;
    };
    let two = "21 00 03 01 00 00 20 00 03 02 00 00";
    let short = "21 00 03 01 00 00 22 00 05 01 00 02 61 62";
    let full = "21 00 03 01 00 00 22 00 0B 01 00 08 61 62 63 64 65 66 67 68";
    let nine = "01 00 09 61 62 63 64 65 66 67 68 69";
    step("save A", "01 00 01 61", 0, "20 00 04 01 00 01 61");
    let both = "20 00 04 01 00 01 61 21 00 03 01 00 00";
    step("save B", "01 00 00", 0, both);
    step("save A", "02 00 00", 0, two);
    step("save C", "01 00 03 61 62 63", 20, two);
    step("forget A", "", 0, "21 00 03 01 00 00");
    step("save C", "01 00 02 61 62", 0, short);
    step("forget A", "", 19, short);
    step("save I", "01 00 00", 19, short);
    step("save a", "01 00 00", 19, short);
    step("save D", "01 00 01 01", 3, short);
    step("save D", nine, 20, short);
    step("save C", "01 00 08 61 62 63 64 65 66 67 68", 0, full);
    step("save B", "01 00 03 61 62 63", 20, full);
    step("forget C", "", 0, "21 00 03 01 00 00");
    step("forget B", "", 0, "");
}

#[test]
fn returns() {
    let store = hex("21 00 04 01 00 01 62 20 00 03 02 00 00 00 00 00");
    let b = hex("01 00 01 62");
    assert_eq!(return_to(&store, b'B', 4), (0, b.clone()));
    assert_eq!(return_to(&store, b'B', 9), (0, b));
    assert_eq!(return_to(&store, b'B', 3), (8, vec![]));
    assert_eq!(return_to(&store, b'A', 3), (0, hex("02 00 00")));
    for (name, length) in [(b'C', 9), (b'C', 0), (b'I', 0), (b'@', 9)] {
        assert_eq!(return_to(&store, name, length), (19, vec![]));
    }
    assert_eq!(return_to(&hex("20 00 00"), b'A', 0), (0, vec![]));
    assert_eq!(
        return_to(&hex("27 00 02 FF FF"), b'H', 2),
        (0, hex("FF FF"))
    );
}

/// 18 or not, and each call answers it, whatever the name.
#[test]
fn forms() {
    let good = [
        "",
        "00 00 00 00",
        "20 00 00",
        "23 00 01 FF 00",
        "27 00 00 20 00 00",
    ];
    let bad = [
        "20 00 01",
        "20 00",
        "20 00 00 20 00 00",
        "28 00 00",
        "1F 00 00",
        "00 20 00 00",
        "20 00 00 00 00 01",
    ];
    for store in good.iter().chain(&bad) {
        let is_bad = bad.contains(store);
        let store = hex(store);
        assert_eq!(read_store(&store).is_err(), is_bad);
        for name in 0..=255 {
            let numbers = [
                save(&store, name, b"").0,
                save(&store, name, b"\x01\x00\x00").0,
                forget(&store, name).0,
                return_to(&store, name, 9).0,
            ];
            assert!(numbers.iter().all(|&number| (number == 18) == is_bad));
        }
    }
}

#[test]
fn orders() {
    let number = |store: &[u8], name: u8, tree: &str| save(store, name, &hex(tree)).0;
    assert_eq!(number(b"\x01", b'@', ""), 18);
    assert_eq!(number(b"\x00\x00", b'@', ""), 19);
    assert_eq!(number(b"\x00\x00", b'A', ""), 2);
    assert_eq!(number(b"\x00\x00", b'A', "01 00 01 01"), 3);
    assert_eq!(number(b"\x00\x00", b'A', "01 00 00"), 20);
    assert_eq!(number(&[0; 6], b'A', "01 00 00"), 0);
    assert_eq!(number(&[0; 5], b'A', "01 00 00"), 20);
}

/// 'A freed stretch serves the next save, and other drafts keep their bytes.'
#[test]
fn a_freed_stretch() {
    let tree = hex("01 00 01 61");
    let mut store = vec![0; 14];
    store = save(&store, b'A', &tree).1;
    store = save(&store, b'B', &tree).1;
    assert_eq!(save(&store, b'H', &tree).0, 20);
    store = forget(&store, b'A').1;
    let (number, store) = save(&store, b'H', &tree);
    assert_eq!(number, 0);
    assert_eq!(
        store,
        hex("21 00 04 01 00 01 61 27 00 04 01 00 01 61"),
        "B first, H behind it"
    );
}

/// A store is what its drafts are, in their order, and nothing else.
#[test]
fn stores_and_their_drafts_are_one() {
    let mut rng = Rng::new(41);
    let mut lengths = [0; 9];
    for _ in 0..2000 {
        let store = stores::store(&mut rng);
        let drafts = read_store(&store).expect("a store of the form");
        assert_eq!(encode_store(&drafts, store.len()), store);
        lengths[drafts.len()] += 1;
    }
    assert!(lengths.iter().all(|&many| many > 100), "{lengths:?}");
    let empty = Draft {
        name: b'C',
        tree: vec![],
    };
    assert_eq!(encode_store(&[empty], 5), hex("22 00 00 00 00"));
}

/// Of the damaged stores most are 18; of the others some are still of the right form.
#[test]
fn damage() {
    let mut rng = Rng::new(42);
    let bad = (0..4000).filter(|_| read_store(&stores::damaged_store(&mut rng)).is_err());
    let percent = bad.count() * 100 / 4000;
    assert!((60..95).contains(&percent), "{percent}");
}

/// Series of calls on the store, beside the same on a plain list of names and trees: 'a return that is not refused gives the tree of the last accepted save under that
/// name, not since forgotten'. Every number that a save can give occurs, and stores with many drafts do.
#[test]
fn series_from_zero_bytes() {
    let mut rng = Rng::new(43);
    let mut numbers = [0; 21];
    let mut most = 0;
    for _ in 0..300 {
        let mut store = vec![0; stores::length(&mut rng)];
        let mut series = Series::new(store.len());
        for _ in 0..40 {
            let (told, answer) = match stores::call(&mut rng) {
                Call::Save(name, tree) => (series.save(name, &tree), save(&store, name, &tree)),
                Call::Forget(name) => (series.forget(name), forget(&store, name)),
            };
            assert_eq!(told.err().unwrap_or(0), answer.0);
            numbers[usize::from(answer.0)] += 1;
            store = answer.1;
            for name in NAMES {
                let (number, tree) = return_to(&store, name, store.len());
                let told = series.tree(name).map(<[u8]>::to_vec);
                assert_eq!(if number == 0 { Ok(tree) } else { Err(number) }, told);
            }
            most = most.max(read_store(&store).expect("a store of the form").len());
        }
    }
    for number in [0, 2, 3, 4, 5, 19, 20] {
        assert!(numbers[number] > 5, "{number}: {numbers:?}");
    }
    assert_eq!((numbers[18], most), (0, 8));
}

/// A tree of the most bytes, eight of them, and fields of the most that a length can say.
#[test]
fn great_stores() {
    let answers: Vec<u8> = stores::great_stores()
        .iter()
        .map(|(store, name, tree)| {
            let (number, after) = save(store, *name, tree);
            let is_there = drafting::returned(&after, *name, usize::MAX).as_ref() == Ok(tree);
            assert_eq!(number == 0, is_there);
            number
        })
        .collect();
    assert_eq!(answers, [0, 20, 0, 2, 0, 0, 0, 20, 0, 20, 0]);
}
