//! Sheets that are too large: by how much, and what can be done.

use leg_sheet::calls::{HEIGHT, WIDTH};
use leg_sheet::{Input, Refusal};

/// Why a sheet is refused with 6: how large it would be, by the planning call, which has no limit.
pub fn too_large(input: Input) -> String {
    let Ok(planned) = input.plan() else {
        return Refusal::TooLarge.sentence().into();
    };
    let (width, height) = (*planned.width.end(), *planned.height.end());
    let too_wide = format!("{width} columns, {WIDTH} is the limit");
    let too_high = format!("{height} lines, {HEIGHT} is the limit");
    let size = match (width > WIDTH, height > HEIGHT) {
        (true, true) => format!("{too_wide}, and {too_high}"),
        (true, false) => too_wide,
        _ => too_high,
    };
    let folds = height > HEIGHT && input.fold(usize::MAX, 0).is_ok();
    let fold = if folds {
        "; legs fold FILE WIDTH breaks it into columns"
    } else {
        ""
    };
    format!("the sheet would have {size}{fold}")
}
