//! The function that libFuzzer calls: it makes the calls of its bytes, of the proved library and of the oracle's reading of the documents (`sides::Paper`).

use std::os::raw::c_int;
use std::process;

use compare::side::Library;
use oracle::compare::Comparison;
use oracle::sides::Paper;

/// Ends the process where the two answer differently.
///
/// # Safety
///
/// At `data` there are `length` bytes.
#[no_mangle]
#[allow(non_snake_case)]
pub unsafe extern "C" fn LLVMFuzzerTestOneInput(data: *const u8, length: usize) -> c_int {
    let bytes = match length {
        0 => &[],
        // SAFETY: as above.
        _ => unsafe { std::slice::from_raw_parts(data, length) },
    };
    let (mut judge, mut library) = (Paper::default(), Library);
    if let Err(difference) = Comparison::new(&mut judge, &mut library).asked(bytes) {
        eprintln!("DIFFERENCE: the judge and the library on {difference}");
        process::abort();
    }
    0
}
