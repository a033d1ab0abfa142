//! The calls that bytes from the fuzzer make.

use oracle::compare::{Comparison, Counts, NUMBERS};
use oracle::gen::Rng;
use oracle::sides::{Original, Paper};
use oracle::{encode_settings, encode_tree, Settings, Tree};

/// The calls that these bytes make, on which both sides agree.
fn asked<'a>(list: impl IntoIterator<Item = &'a Vec<u8>>) -> Counts {
    let (mut one, mut other) = (Original::default(), Paper::default());
    let mut comparison = Comparison::new(&mut one, &mut other);
    for bytes in list {
        if let Err(difference) = comparison.asked(bytes) {
            panic!("{bytes:02x?}: {difference}");
        }
    }
    comparison.counts
}

/// A first byte, and up to 200 others.
fn random(rng: &mut Rng) -> Vec<u8> {
    let mut bytes = vec![rng.below(27) as u8];
    for _ in 0..rng.below(200) {
        bytes.push(rng.below(256) as u8);
    }
    bytes
}

/// Every call accepts some of it and refuses some.
#[test]
fn every_call_is_asked() {
    let mut rng = Rng::new(81);
    let list: Vec<Vec<u8>> = (0..3000).map(|_| random(&mut rng)).collect();
    let counts = asked(&list);
    for (call, _) in NUMBERS
        .iter()
        .filter(|(call, _)| !call.starts_with("alike"))
    {
        let reached = counts.reached(call);
        assert!(reached.len() > 1 && reached[0] == 0, "{call}: {reached:?}");
    }
}

/// An empty input makes no call; settings and a tree behind the bytes that choose are passed on as they are.
#[test]
fn an_input_is_handed_over() {
    assert_eq!(asked(&[vec![]]).total(), 0);
    let input = [encode_settings(&Settings::M), encode_tree(&Tree::cell("a"))].concat();
    for group in 0..4 {
        let bytes = [vec![group], vec![2; 16], input.clone()].concat();
        let counts = asked(&[bytes]);
        let call = ["tree", "fold", "plan", "widen"][usize::from(group)];
        let number = if call == "fold" { 15 } else { 0 };
        assert_eq!(counts.reached(call), [number], "{call}");
    }
}

/// Bytes choose as long as there are any, each among 256 or fewer; more choices take more bytes.
#[test]
fn bytes_choose() {
    let mut rng = Rng::of(&[7, 0, 1, 2, 3, 9]);
    assert_eq!(rng.below(1), 0);
    assert_eq!(rng.below(5), 2);
    assert_eq!(rng.below(256), 0);
    assert_eq!(rng.below(257), (256 + 2) % 257);
    assert_eq!(rng.below(65_537), 3 * 256 + 9);
    let numbers = [0; 4].map(|_: usize| rng.below(1 << 40));
    let mut other = Rng::new(0);
    assert_eq!(numbers, [0; 4].map(|_: usize| other.below(1 << 40)));
}
