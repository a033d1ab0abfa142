//! The greatest inputs and outputs: nothing of them is lost on the way between values and bytes.

use leg_sheet::{
    print_leaf, print_sheet, Draft, DraftStore, Plan, Refusal, Settings, SizeRecord, Tree,
};

/// A text that makes a tree or a Cell of this many bytes.
fn text(bytes: usize) -> String {
    "x".repeat(bytes - 3)
}

/// A tree that has all of its bytes before its last child is put is too long with it, and not without a word one without it.
#[test]
fn no_child_is_lost() {
    for bytes in 32_766..=32_770 {
        let full = Tree::column([Tree::from(text(bytes - 3))]);
        let more = Tree::column([Tree::from(text(bytes - 3)), "".into()]);
        assert_eq!(
            full.to_bytes().map(|it| it.len()),
            if bytes > 32_768 {
                Err(Refusal::BadTree)
            } else {
                Ok(bytes)
            }
        );
        assert_eq!(more.to_bytes(), Err(Refusal::BadTree), "{bytes}");
        let plan = Plan::column([Plan::from(text(bytes - 3)), "".into()]);
        assert_eq!(plan.to_bytes(), Err(Refusal::BadTree), "{bytes}");
    }
    let inside = Tree::row([Tree::column([Tree::from(text(32_762))]), "".into()]);
    assert_eq!(inside.to_bytes(), Err(Refusal::BadTree));
}

/// A sheet of 400 columns by 160 lines, and the block of its only leaf.
#[test]
fn the_largest_sheet() {
    let large = |wider: usize, taller: usize| {
        Tree::from("x".repeat(396 + wider) + &"\n".repeat(157 + taller))
    };
    let settings = Settings::default();
    let sheet = print_sheet(&settings, &large(0, 0)).expect("a sheet");
    let lines: Vec<&str> = sheet.split('\n').collect();
    assert_eq!((lines.len(), sheet.len()), (160, 401 * 160 - 1));
    assert!(lines.iter().all(|line| line.len() == 400));
    assert_eq!(print_leaf(&settings, &large(0, 0), 0), Ok(sheet));
    for tree in [large(1, 0), large(0, 1)] {
        assert_eq!(print_sheet(&settings, &tree), Err(Refusal::TooLarge));
    }
}

/// A store that no call has made may have longer fields than a tree has bytes: up to what two bytes of length can say.
#[test]
fn the_longest_field() {
    for length in [32_768, 32_769, 65_535u16.into()] {
        let front = [0x20, (length >> 8) as u8, length as u8];
        let mut bytes = [&front[..], &vec![b'x'; length], &[0; 5]].concat();
        let store = DraftStore::new(&mut bytes);
        assert_eq!(store.return_bytes(b'A').map(|it| it.len()), Ok(length));
        assert_eq!(store.list(), Ok(vec![Draft { name: b'A', length }]));
        assert_eq!(store.free(), Ok(5));
        assert_eq!(store.return_to(b'A'), Err(Refusal::BadTree));
    }
}

/// Each number of a size record has its own place, both ways.
#[test]
fn a_size_record_is_its_numbers() {
    let numbers = [1, 2, 3, 4, 5];
    let record = SizeRecord {
        natural_width: 1,
        natural_height: 2,
        allotted_width: 3,
        allotted_height: 4,
        below: 5,
    };
    assert_eq!(SizeRecord::from_numbers(numbers), record);
    assert_eq!(record.to_numbers(), numbers);
}
