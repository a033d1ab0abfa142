//! The value of a setting, as it is typed. The proved reader alone knows the ranges: a part of a value is tried alone, and what is said of it is what the reader accepts.

use super::words::{Kind, SetSides, Word, NAMED};
use super::{Marks, Settings, Sides, ASCII};

/// What is wrong with a value: at which byte of it, and in words.
pub(super) struct Wrong {
    pub at: usize,
    pub words: String,
}

impl Wrong {
    pub fn new(at: usize, words: impl Into<String>) -> Wrong {
        let words = words.into();
        Wrong { at, words }
    }
}

impl Word {
    /// These settings with another value of this one.
    pub(super) fn set(&self, settings: Settings, value: &str) -> Result<Settings, Wrong> {
        if value.is_empty() {
            return Err(Wrong::new(0, format!("no value: {}", self.values())));
        }
        let refused = |_| Wrong::new(0, self.values());
        match self.kind {
            Kind::Sizes(set, _) => set(settings, sizes(set, value)?).map_err(refused),
            Kind::Fills(set, _) => set(settings, fills(set, value)?).map_err(refused),
            Kind::Marks => settings.with_marks(marks(value)?).map_err(refused),
            Kind::Choice(names, set, _) => Ok(set(settings, choice(names, value)?)),
        }
    }

    /// The value as it is typed; none where there is nothing to say.
    pub(super) fn show(&self, settings: &Settings) -> Option<String> {
        match self.kind {
            Kind::Sizes(_, get) => Some(get(settings).numbers().map(|n| n.to_string()).join(" ")),
            Kind::Fills(_, get) => Some(quoted(&get(settings).numbers())),
            Kind::Marks => match settings.marks {
                Marks::None => None,
                Marks::All(bytes) => Some(quoted(&bytes)),
            },
            Kind::Choice(names, _, get) => Some(names[get(settings)].into()),
        }
    }

    /// How many characters are allowed between quote marks, the most first.
    pub(super) fn quoted(&self) -> &'static [usize] {
        match self.kind {
            Kind::Fills(..) => &[4, 1],
            Kind::Marks => &[15],
            Kind::Sizes(..) | Kind::Choice(..) => &[],
        }
    }
}

fn quoted(bytes: &[u8]) -> String {
    format!("'{}'", String::from_utf8_lossy(bytes))
}

/// Four numbers, or one for all sides, separated by commas or spaces.
fn sizes(set: SetSides, value: &str) -> Result<Sides, Wrong> {
    let mut numbers = Vec::new();
    let mut at = 0;
    for part in value.split([',', ' ', '\t']) {
        if !part.is_empty() {
            numbers.push(number(set, part).map_err(|words| Wrong::new(at, words))?);
        }
        at += part.len() + 1;
    }
    sides(&numbers).ok_or_else(|| Wrong::new(0, "four numbers, left right top bottom, or one"))
}

/// A number that is allowed for a side.
fn number(set: SetSides, part: &str) -> Result<u8, String> {
    if !part.bytes().all(|byte| byte.is_ascii_digit()) {
        return Err(format!("'{part}' is no number"));
    }
    let number = part.parse().ok().filter(|&number| is_size(set, number));
    number.ok_or_else(|| format!("{part} is over {}", greatest(set)))
}

/// Whether the reader accepts a number on the sides.
fn is_size(set: SetSides, number: u8) -> bool {
    set(Settings::default(), Sides::all(number)).is_ok()
}

/// The number up to which it accepts all.
pub(super) fn greatest(set: SetSides) -> u8 {
    let accepted = (0..=u8::MAX).take_while(|&number| is_size(set, number));
    accepted.last().unwrap_or_default()
}

/// Four characters, or one for all sides.
fn fills(set: SetSides, value: &str) -> Result<Sides, Wrong> {
    let is_accepted = |byte| set(Settings::default(), Sides::all(byte)).is_ok();
    let bytes = characters(value, is_accepted)?;
    sides(&bytes).ok_or_else(|| Wrong::new(0, "four characters, left right top bottom, or one"))
}

/// Fifteen characters, or the name of some.
fn marks(value: &str) -> Result<[u8; 15], Wrong> {
    let named = NAMED.into_iter().find(|(name, _)| *name == value);
    if let Some((_, marks)) = named {
        return Ok(marks);
    }
    // Fifteen zeros would be no marks: among others a zero is refused, too.
    let is_accepted = |byte| {
        let mut marks = ASCII;
        marks[0] = byte;
        Settings::default().with_marks(marks).is_ok()
    };
    let bytes = characters(value, is_accepted)?;
    let count = bytes.len();
    let wrong = |_| Wrong::new(0, format!("fifteen characters, and these are {count}"));
    bytes.try_into().map_err(wrong)
}

/// The bytes of characters that may be printed.
fn characters(value: &str, is_accepted: impl Fn(u8) -> bool) -> Result<Vec<u8>, Wrong> {
    let byte = |(at, it): (usize, char)| {
        let byte = u8::try_from(it).ok().filter(|&byte| is_accepted(byte));
        let words = || format!("{it:?} (U+{:04X}) cannot be printed", u32::from(it));
        byte.ok_or_else(|| Wrong::new(at, words()))
    };
    value.char_indices().map(byte).collect()
}

fn sides(bytes: &[u8]) -> Option<Sides> {
    match *bytes {
        [all] => Some(Sides::all(all)),
        [left, right, top, bottom] => Some(Sides::of([left, right, top, bottom])),
        _ => None,
    }
}

/// The index of a name.
fn choice(names: &[&str], value: &str) -> Result<usize, Wrong> {
    let at = names.iter().position(|name| *name == value);
    at.ok_or_else(|| Wrong::new(0, format!("'{value}' is none of {}", names.join(", "))))
}
