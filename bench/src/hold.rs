//! A and B checked against the original: what is timed must be right.

use oracle::calls::{Calls, Counted};
use oracle::gen::{any_case, Case, Margins, Rng};
use oracle::sides::Original;

const CASES: usize = 3000;

/// The bytes behind an output, which no printer may write.
const BEHIND: usize = 64;

type Printer = fn(&[u8], &[u8], &mut [u8]) -> light::Answer;

/// Whether a printer answers and writes what the original does.
fn agrees(print: Printer, case: &Case, wanted: &Counted, sheet: &[u8]) -> bool {
    let mut output = vec![0xEE; case.sheet + BEHIND];
    let answer = print(&case.settings, &case.tree, &mut output[..case.sheet]);
    let (written, rest) = output.split_at(wanted.count);
    (answer.number, answer.count) == (wanted.number, wanted.count)
        && *written == sheet[..wanted.count]
        && rest.iter().all(|&byte| byte == 0xEE)
}

/// On random inputs of any kind, with lines and without a margin; answers how many.
pub fn hold() -> usize {
    let (mut original, mut rng) = (Original::default(), Rng::new(1));
    let mut held = 0;
    while held < CASES {
        let case = any_case(&mut rng, Margins::None);
        if case.settings.len() > 31 {
            continue;
        }
        let mut sheet = vec![0xEE; case.sheet];
        let wanted = original.sheet(&case.settings, &case.tree, &mut sheet);
        assert!(
            agrees(light::lists::print_sheet, &case, &wanted, &sheet),
            "A: {case:02x?}"
        );
        assert!(
            agrees(light::stamps::print_sheet, &case, &wanted, &sheet),
            "B: {case:02x?}"
        );
        held += 1;
    }
    held
}
