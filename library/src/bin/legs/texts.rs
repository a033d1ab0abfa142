//! Texts as they are shown in a line.

/// The letters of a text that are shown.
const SHOWN: usize = 32;

/// The beginning of a text: its first line, as far as it is shown, and two dots where the text goes on.
pub fn beginning(text: &str) -> String {
    let line = text.split('\n').next().unwrap_or_default();
    let shown: String = line.chars().take(SHOWN).collect();
    let more = if shown == text { "" } else { " .." };
    format!("{shown}{more}")
}

/// A whole text in one line, as it is typed.
pub fn on_one_line(text: &str) -> String {
    text.replace('\\', "\\\\").replace('\n', "\\n")
}
