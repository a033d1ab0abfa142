//! Planning trees as lines (document 02, 10), by the crate's sizes of the choices of texts. Settings and trees are given as in the replays:
//!   = the settings' bytes      : the tree's bytes      + N, bytes: these go on the tree N times
//! The number, then the least and the greatest W, the least and the greatest H; beside a refusal zeros:
//!   e NUMBER LEAST GREATEST LEAST GREATEST

use crate::form::{encode_plan, encode_settings, Margin, Settings};
use crate::gen::{self, Margins, Rng};
use crate::judge;
use crate::lines::Lines;

/// As many nodes as there may be, and one more; beside the greatest ranges a Cell of all bytes that are left, and of one more.
fn as_many_as_there_may_be(lines: &mut Lines) {
    lines.title("As many ranges, and bytes, as there may be, and one more");
    let great = Settings {
        padding: [16; 4],
        margin: Margin {
            sizes: [16; 4],
            fills: *b"LRTB",
        },
        ..Settings::M
    };
    let great = encode_settings(&great);
    let range = b"\x04\x00\x04\x00\xFF\x01\xFF";
    for head in [[2, 0x0D, 0xF9], [3, 0x0D, 0xF9]] {
        lines.repeated(&great, &head, 511, range);
        lines.plan();
    }
    lines.repeated(&great, &[2, 0x0E, 0x00], 512, range);
    lines.plan();
    for (head, bytes) in [([2, 0x7F, 0xFD], 32_755), ([2, 0x7F, 0xFE], 32_756)] {
        let cell = [1, (bytes / 256) as u8, (bytes % 256) as u8];
        let head = [&head[..], range, &cell].concat();
        lines.repeated(&great, &head, bytes, b"w");
        lines.plan();
    }
    let d = encode_settings(&Settings::D);
    let rows = |n: usize, last: &[u8]| {
        (0..n).fold(last.to_vec(), |inner, _| {
            [&[2, 0, inner.len() as u8], &inner[..]].concat()
        })
    };
    for n in [15, 16] {
        lines.given(&d, &rows(n, range));
        lines.plan();
    }
}

/// The same elements in other turns: the first fault in node order is the answer.
fn refused_plans(lines: &mut Lines) {
    lines.title("Refused plans");
    let m = encode_settings(&Settings::M);
    let given: [(&[u8], &[u8]); 11] = [
        (&m[..30], b"\x04\x00\x04\x03\x02\x01\x01"),
        (&m, b""),
        (&m, b"\x04\x00\x00"),
        (&m, b"\x04\x00\x04\x01\x02\x01\x03a"),
        (&m, b"\x04\x00\x04\xff\xfe\x01\x01"),
        (&m, b"\x04\x00\x04\x00\xff\xff\xfe"),
        (&m, b"\x04\x00\x04\x00\xff\x00\xff"),
        (&m, b"\x05\x00\x04\x00\x00\x01\x01"),
        (
            &m,
            b"\x03\x00\x12\x02\x00\x07\x04\x00\x04\x00\x00\x01\x01\x01\x00\x01\x07\x04\x00\x01\x00",
        ),
        (
            &m,
            b"\x03\x00\x0b\x04\x00\x04\x09\x08\x01\x01\x01\x00\x01\x07",
        ),
        (
            &m,
            b"\x02\x00\x0e\x04\x00\x04\x00\x00\x01\x01\x04\x00\x05\x00\x00\x01\x01",
        ),
    ];
    for (settings, tree) in given {
        lines.given(settings, tree);
        lines.plan();
    }
}

/// This many random settings, each with four planning trees of a few bytes and two that are refused.
pub fn random_plans(lines: &mut Lines, rng: &mut Rng, many: usize) {
    lines.title("Random plans");
    let mut refused = [17, 3, 17, 2].into_iter().cycle();
    for _ in 0..many {
        let settings = encode_settings(&gen::settings(rng, Margins::Half));
        let mut left = 4;
        while left > 0 {
            let (_, plan) = gen::plan(rng);
            let bytes = encode_plan(&plan);
            if plan.ranges().len() > 1 && bytes.len() < 100 {
                lines.given(&settings, &bytes);
                lines.plan();
                left -= 1;
            }
        }
        for number in refused.by_ref().take(2) {
            let bytes = loop {
                let (_, bytes) = gen::any_plan(rng);
                if (20..60).contains(&bytes.len()) && judge::plan(&settings, &bytes) == number {
                    break bytes;
                }
            };
            lines.given(&settings, &bytes);
            lines.plan();
        }
    }
}

/// The lines, about 50 plans.
pub fn lines(seed: u64) -> String {
    let mut rng = Rng::new(seed);
    let mut lines = Lines::default();
    as_many_as_there_may_be(&mut lines);
    refused_plans(&mut lines);
    random_plans(&mut lines, &mut rng, 6);
    lines.text
}
