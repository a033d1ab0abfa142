//! Document 02, 10: sheets planned before their texts are known, by the crate's sizes of the choices of texts and by the document's words.

use oracle::calls::{Calls, Planned};
use oracle::gen::{self, Rng};
use oracle::planning::{self, text_of};
use oracle::sides::{Original, Paper};
use oracle::{
    encode_plan, encode_settings, encode_tree, judge, original, paper, Ends, Margin, Plan, Range,
    Settings,
};

fn d() -> Vec<u8> {
    encode_settings(&Settings::D)
}

/// The least and the greatest W, then H, or the number, on both sides. The number is the judge's, and a refusal has no ends.
fn planned(settings: &[u8], tree: &[u8]) -> Result<[usize; 4], u8> {
    let answer = Original::default().plan(settings, tree);
    assert_eq!(Paper::default().plan(settings, tree), answer);
    let Planned { number, ends } = answer;
    assert_eq!(judge::plan(settings, tree), number);
    if number != 0 {
        assert_eq!(ends, Ends::default());
        return Err(number);
    }
    let ([a, b], [c, d]) = (ends.width, ends.height);
    Ok([a, b, c, d])
}

const NAME: &[u8] = b"\x04\x00\x04\x02\x05\x01\x03";

#[test]
fn ranges_alone_and_in_groups() {
    let d = d();
    let edged = [&d[..], b"\x11\x00\x08\x01\x02\x03\x04lrtb"].concat();
    let two = b"\x02\x00\x0E\x04\x00\x04\x01\x02\x01\x04\x04\x00\x04\x00\x09\x02\x03";
    let many = [
        b"\x02\x0D\xF9",
        &b"\x04\x00\x04\xFF\xFF\xFF\xFF".repeat(511)[..],
    ];
    for (settings, tree, ends) in [
        (&d, NAME, [6, 9, 3, 5]),
        (&d, b"\x04\x00\x04\x00\x00\x01\x01", [4, 4, 3, 3]),
        (&d, b"\x04\x00\x04\x03\x03\x02\x02", [7, 7, 4, 4]),
        (
            &d,
            b"\x03\x00\x0E\x01\x00\x04abcd\x04\x00\x04\x02\x06\x01\x01",
            [8, 10, 5, 5],
        ),
        (
            &d,
            b"\x03\x00\x0E\x01\x00\x04abcd\x04\x00\x04\x00\x03\x01\x01",
            [8, 8, 5, 5],
        ),
        (&d, two, [8, 18, 4, 6]),
        (&edged, NAME, [9, 12, 10, 12]),
        (&d, &many.concat(), [131_839, 131_839, 257, 257]),
        (&d, b"\x01\x00\x02ab", [6, 6, 3, 3]),
        (&d, b"\x02\x00\x00", [4, 4, 3, 3]),
    ] {
        assert_eq!(planned(settings, tree), Ok(ends), "{tree:?}");
    }
    // Without lines there are neither separators nor edges.
    let n = encode_settings(&Settings::N);
    assert_eq!(planned(&n, two), Ok([5, 15, 2, 4]));
}

#[test]
fn refusals() {
    let d = d();
    let rows = |last: &[u8]| {
        (0..16).fold(last.to_vec(), |inner, _| {
            [&[2, 0, inner.len() as u8], &inner[..]].concat()
        })
    };
    let cells = [&[2, 0x05, 0xFA], &[1, 0, 0].repeat(510)[..]].concat();
    let node_513 = [
        &[3, 0x06, 0x04],
        &cells[..],
        b"\x04\x00\x04\x03\x02\x01\x01",
    ];
    for (tree, number) in [
        (&b"\x04\x00\x04\x03\x02\x01\x01"[..], 17),
        (b"\x04\x00\x04\x00\x00\x02\x01", 17),
        (b"\x04\x00\x04\x00\x00\x00\x01", 17),
        (b"\x04\x00\x04\x00\x00\x00\x00", 17),
        (b"\x04\x00\x03\x00\x00\x01", 2),
        (b"\x04\x00\x05\x00\x00\x01\x01\x01", 2),
        (b"\x04\x00\x04\x00\x00\x01", 2),
        // The first fault in node order.
        (
            b"\x02\x00\x0B\x04\x00\x04\x03\x02\x01\x01\x01\x00\x01\x01",
            17,
        ),
        (
            b"\x02\x00\x0B\x01\x00\x01\x01\x04\x00\x04\x03\x02\x01\x01",
            3,
        ),
        (b"\x02\x00\x0A\x04\x00\x04\x03\x02\x01\x01\x05\x00\x00", 17),
        // In one element 2, 5, 4, then 17.
        (&rows(b"\x04\x00\x04\x03\x02\x01\x01"), 5),
        (&rows(b"\x04\x00\x01\x03"), 2),
        (&node_513.concat(), 4),
        // The root's end, and the tree's length.
        (b"\x04\x00\x04\x03\x02\x01\x01\x00", 2),
        (b"", 2),
        (
            &[&[2, 0x7F, 0xFE], NAME, &[1, 0x7F, 0xF4], &[7; 32_756]].concat(),
            2,
        ),
        (
            &[&[2, 0x7F, 0xFD], NAME, &[1, 0x7F, 0xF3], &[7; 32_755]].concat(),
            3,
        ),
    ] {
        assert_eq!(planned(&d, tree), Err(number), "{tree:?}");
        assert_eq!(planned(&d[..30], tree), Err(1));
    }
}

/// 'Only planning calls take tag 4; elsewhere it is still 2.'
#[test]
fn other_calls_take_no_range() {
    let row = [&[2, 0, 14][..], NAME, NAME].concat();
    for tree in [NAME, &row] {
        let (settings, most) = (&d(), usize::MAX);
        for number in [
            judge::tree(tree),
            judge::sizes(settings, tree, most),
            judge::leaf_record(settings, tree, 0),
            judge::leaf(settings, tree, 0, most),
            judge::sheet(settings, tree, most),
            judge::place(settings, tree, 0, 0),
            judge::places(settings, tree, &[], most),
            judge::fold(settings, tree, most, most, most),
        ] {
            assert_eq!(number, 2);
        }
    }
}

/// The two readers agree: where one has a tree the other has that tree without ranges; and the reader of trees says 2 of a range, or what is before it.
#[test]
fn a_tree_is_a_plan_without_ranges() {
    let mut rng = Rng::new(41);
    let any = (0..4000).map(|_| match rng.below(2) {
        0 => gen::any_plan(&mut rng).1,
        _ => gen::any_case(&mut rng, gen::Margins::None).tree,
    });
    let given: Vec<Vec<u8>> = any
        .chain(gen::short_bytes(6))
        .chain(gen::faults())
        .chain(gen::plan_faults())
        .chain(gen::long_trees())
        .collect();
    for bytes in given {
        match (judge::read_tree(&bytes), planning::read_plan(&bytes)) {
            (Ok(tree), Ok(plan)) => {
                assert_eq!(plan, Plan::of(&tree, &mut |text| Plan::Cell(text.to_vec())));
            }
            (Err(2), Ok(plan)) => assert!(!plan.ranges().is_empty(), "{bytes:?}"),
            (Err(2), Err(_)) => {}
            (Err(one), Err(other)) => assert_eq!(one, other, "{bytes:?}"),
            (tree, plan) => panic!("{bytes:?}: {tree:?}, {plan:?}"),
        }
    }
}

/// Reading is the reverse of encoding, for ranges that are in order.
#[test]
fn plans_and_their_bytes_are_one() {
    for plan in (1..=4).flat_map(gen::small_plans) {
        assert_eq!(planning::read_plan(&encode_plan(&plan)), Ok(plan));
    }
}

/// A text has the width and the lines that it was made for.
#[test]
fn texts_have_their_size() {
    for (width, lines, at) in [(0, 1, 0), (0, 3, 1), (1, 2, 9), (5, 3, 7), (255, 255, 100)] {
        let text = text_of(width, lines, at);
        let parts: Vec<&[u8]> = text.split(|&byte| byte == b'\n').collect();
        let longest = parts.iter().map(|line| line.len()).max();
        assert_eq!((longest, parts.len()), (Some(width), lines));
    }
}

/// Every choice is tried once where there are few; else those of the ends.
#[test]
fn choices_are_within_their_ranges() {
    let range = |w: u8, l: u8| Range {
        width: [3, 3 + w],
        lines: [1, 1 + l],
    };
    for (ranges, count) in [
        (vec![], 1),
        (vec![range(0, 0)], 1),
        (vec![range(1, 2)], 6),
        (vec![range(9, 9), range(9, 0)], 1000),
        (vec![range(9, 9), range(10, 0)], 4),
        (vec![range(252, 254); 511], 4),
    ] {
        let choices = planning::choices(&ranges);
        assert_eq!(choices.len(), count);
        for (at, choice) in choices.iter().enumerate() {
            assert!(!choices[..at].contains(choice));
            for (&(width, lines), range) in choice.iter().zip(&ranges) {
                let within =
                    |[least, greatest]: [u8; 2], n| (least.into()..=greatest.into()).contains(&n);
                assert!(within(range.width, width) && within(range.lines, lines));
            }
        }
    }
}

/// 'Every choice of texts within the ranges has its W and H between them': random texts, of random lines, in the sheet that the crate prints. 'Each of the four ends is
/// reached by some choice': by the sheets of the least texts and of the greatest.
#[test]
fn sheets_of_the_texts_lie_between() {
    let mut rng = Rng::new(42);
    let mut left = 150;
    while left > 0 {
        let (settings, plan) = gen::plan(&mut rng);
        let ranges = plan.ranges();
        let bytes = (encode_settings(&settings), encode_plan(&plan));
        let Ok([least_w, greatest_w, least_h, greatest_h]) = planned(&bytes.0, &bytes.1) else {
            continue;
        };
        if ranges.is_empty() || greatest_w > 1000 || greatest_h > 1000 {
            continue;
        }
        left -= 1;
        let sheet = |texts: Vec<Vec<u8>>| {
            let tree = plan.with(&mut texts.into_iter());
            let sheet = paper::mended(&settings, &tree, original::answer(&settings, &tree)).sheet;
            let lines: Vec<&[u8]> = sheet.split(|&byte| byte == b'\n').collect();
            (lines[0].len(), lines.len())
        };
        let end = |at: usize| {
            let text = |range: &Range| text_of(range.width[at].into(), range.lines[at].into(), at);
            sheet(ranges.iter().map(text).collect())
        };
        assert_eq!(
            (end(0), end(1)),
            ((least_w, least_h), (greatest_w, greatest_h))
        );

        let mut text = |range: &Range| {
            let ([least, greatest], [fewest, most]) = (range.width, range.lines);
            let width = rng.between(least.into(), greatest.into());
            let lines = rng.between(fewest.into(), most.into());
            let longest = rng.below(lines);
            let mut line = |n: usize| {
                vec![
                    b'x';
                    if n == longest {
                        width
                    } else {
                        rng.between(0, width)
                    }
                ]
            };
            (0..lines).map(&mut line).collect::<Vec<_>>().join(&b'\n')
        };
        for _ in 0..4 {
            let (w, h) = sheet(ranges.iter().map(&mut text).collect());
            assert!((least_w..=greatest_w).contains(&w) && (least_h..=greatest_h).contains(&h));
        }
    }
}

/// A tree without ranges is planned as it is: both ends are its sheet's.
#[test]
fn plain_trees() {
    let mut rng = Rng::new(43);
    for _ in 0..200 {
        let (settings, tree) = gen::table(&mut rng, gen::Margins::Half);
        let (w, h) = paper::rectangle(&settings, &paper::sizes(&settings, &tree));
        let plan = planned(&encode_settings(&settings), &encode_tree(&tree));
        assert_eq!(plan, Ok([w, w, h, h]));
    }
}

/// The greatest numbers there are: they need 32 bits.
#[test]
fn great_plans() {
    let ends = gen::great_plans().into_iter().map(|(settings, plan)| {
        let bytes = encode_plan(&plan);
        assert!(bytes.len() <= judge::TREE_BYTES);
        planned(&encode_settings(&settings), &bytes)
    });
    let expected = [
        [16_896, 147_201, 67, 321],
        [66, 321, 17_407, 147_201],
        [46_088, 176_138, 67, 321],
        [66, 321, 46_599, 176_139],
    ];
    assert!(ends.eq(expected.map(Ok)));
}

/// Padding, edges and the margin are part of the ends.
#[test]
fn padding_and_margin() {
    let settings = Settings {
        padding: [1, 2, 3, 4],
        margin: Margin {
            sizes: [5, 6, 7, 8],
            fills: *b"lrtb",
        },
        ..Settings::M
    };
    let ends = planned(&encode_settings(&settings), NAME);
    assert_eq!(ends, Ok([18, 21, 25, 27]));
}

/// The examples of docs/CALL-FORMS.md.
#[test]
fn examples() {
    let tree = b"\x03\x00\x0E\x01\x00\x04abcd\x04\x00\x04\x02\x06\x01\x03";
    assert_eq!(planned(&d(), tree), Ok([8, 10, 5, 7]));
    let file = std::fs::read("../examples/flight.plan").expect("the example");
    let (settings, tree) = judge::split(&file);
    assert_eq!(planned(settings, tree), Ok([32, 47, 12, 16]));
    assert_eq!(judge::sheet(settings, tree, usize::MAX), 2);
}
