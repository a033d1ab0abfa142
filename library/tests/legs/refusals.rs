//! What is said of refusals.

use crate::{fails, said, DEFAULTS};

#[test]
fn refusals_are_messages() {
    let wide = "refused.legs: refused 6: the sheet would have 406 columns, 400 is the limit";
    fails(&["print", "refused.legs"], wide, 1);
    let group =
        "figure2.legs: refused 9: the number names no leaf or, where texts are blanked, no Cell";
    fails(&["leaf", "figure2.legs", "0"], group, 1);
    let outside = "figure2.legs: refused 12: the line or column is outside the printed sheet";
    fails(&["place", "figure2.legs", "5", "0"], outside, 1);
    let margin = "binder.legs: refused 13: the place is in the sheet's margin";
    fails(&["place", "binder.legs", "1", "7"], margin, 1);
    let cut = "legs: standard input: refused 1: the settings are malformed or out of range\n";
    for words in [
        &["print", "-"][..],
        &["sizes", "-"],
        &["place", "-", "0", "0"],
    ] {
        let refused = (String::new(), cut.into(), Some(1));
        assert_eq!(said(words, &DEFAULTS[..30]), refused);
    }
}

/// Which limit, how large the sheet would be, and what breaks a list into columns.
#[test]
fn sheets_that_are_too_large() {
    let refused = |words: &[&str], list: &str, size: &str| {
        let message = format!("legs: standard input: refused 6: the sheet would have {size}\n");
        let told = (String::new(), message, Some(1));
        assert_eq!(said(words, list.as_bytes()), told, "{words:?}");
    };
    let legs = |word: &str, count: usize| {
        let lines = (1..=count).map(|leg| format!("  leg {leg}\n"));
        format!("{word}\n{}", lines.collect::<String>())
    };
    let fold = "; legs fold FILE WIDTH breaks it into columns";
    let high = format!("201 lines, 160 is the limit{fold}");
    refused(&["print", "-"], &legs("column", 100), &high);
    refused(&["leaf", "-", "1"], &legs("column", 100), &high);
    let nested = legs("column", 99) + "  row\n    a\n    b\n";
    let high = "201 lines, 160 is the limit";
    refused(&["place", "-", "1", "1"], &nested, high);
    let margin = ["print", "-", "--margin", "0,0,16,16"];
    let high = format!("173 lines, 160 is the limit{fold}");
    refused(&margin, &legs("column", 70), &high);
    let wide = "532 columns, 400 is the limit";
    refused(&["print", "-"], &legs("row", 60), wide);
    let both = "column\n  x\n  ".to_string() + &"y".repeat(400) + &"\n  x".repeat(90);
    let size = format!("404 columns, 400 is the limit, and 185 lines, 160 is the limit{fold}");
    refused(&["print", "-"], &both, &size);
}
