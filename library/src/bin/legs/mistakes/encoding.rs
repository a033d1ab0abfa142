//! Files that are no plain text.

use leg_sheet::{Refusal, TypedFault};

use crate::shown::Mistake;

/// The byte order mark of UTF-8.
pub const BYTE_ORDER_MARK: &[u8] = b"\xEF\xBB\xBF";

/// The bytes that are looked at.
const FRONT: usize = 8192;

/// What is wrong with a file as a whole, where that is why the reader found a bad character in it, or too many of them.
pub fn mistake(list: &[u8], fault: TypedFault) -> Option<Mistake> {
    let (line, column) = (fault.line as usize, fault.column as usize);
    let whole = |words: &str| Mistake {
        line: 0,
        column: 0,
        words: words.into(),
    };
    let front = &list[..list.len().min(FRONT)];
    match fault.refusal {
        Refusal::ListTooLong | Refusal::BadCharacter if is_utf16(front) => {
            Some(whole("the file is UTF-16: save it as UTF-8 without BOM"))
        }
        Refusal::ListTooLong | Refusal::BadCharacter if front.contains(&0) => {
            Some(whole("this is no text file"))
        }
        Refusal::BadCharacter if is_marked(list) => Some(Mistake {
            line,
            column,
            words: "the file begins with a byte order mark: save it as UTF-8 without BOM".into(),
        }),
        _ => None,
    }
}

/// Whether a list begins with the byte order mark of UTF-8, which is then the first character that is not allowed.
pub fn is_marked(list: &[u8]) -> bool {
    list.starts_with(BYTE_ORDER_MARK)
}

/// By its byte order mark, or by the zeros of two letters at its front.
fn is_utf16(front: &[u8]) -> bool {
    match *front {
        [0xFF, 0xFE, ..] | [0xFE, 0xFF, ..] => true,
        [0, a, 0, b, ..] | [a, 0, b, 0, ..] => a != 0 && b != 0,
        _ => false,
    }
}
