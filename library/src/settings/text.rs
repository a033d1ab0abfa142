//! Settings as a text: a name and its value to a line, with comments.

use std::error::Error;
use std::fmt;

use super::value::Wrong;
use super::words::Word;
use super::{Marks, Settings};

/// What is wrong with settings in words, and at which line and column, both counted from 1, the column in bytes. Both are 0 where the words are no text.
///
/// ```
/// use leg_sheet::Settings;
///
/// let fault = Settings::from_words("# binder\nmargin 17 0 1 0\n").unwrap_err();
/// assert_eq!(fault.to_string(), "line 2, column 8: margin: 17 is over 16");
/// ```
#[derive(Debug, Clone, PartialEq, Eq, Hash)]
pub struct WordFault {
    /// The line, from 1 on; 0 where there is none.
    pub line: usize,
    /// The column, from 1 on; 0 where there is none.
    pub column: usize,
    /// What is wrong.
    pub words: String,
}

impl fmt::Display for WordFault {
    fn fmt(&self, f: &mut fmt::Formatter<'_>) -> fmt::Result {
        if self.line > 0 {
            write!(f, "line {}, column {}: ", self.line, self.column)?;
        }
        f.write_str(&self.words)
    }
}

impl Error for WordFault {}

impl Settings {
    /// The settings of a text: the default ones but for those named.
    ///
    /// ```
    /// use leg_sheet::{Settings, Sides, WordFault};
    ///
    /// let text = "# for the binder\n\
    ///             margin 8 0 1 0   # left right top bottom\n\
    ///             margin-fill '  = '\n\
    ///             align center\n";
    /// let settings = Settings::from_words(text)?;
    /// assert_eq!(settings.margin(), Sides { left: 8, right: 0, top: 1, bottom: 0 });
    /// assert_eq!(settings.padding(), Settings::default().padding());
    /// assert_eq!(Settings::from_words(settings.words())?, settings);
    /// # Ok::<(), WordFault>(())
    /// ```
    ///
    /// # Errors
    /// A name that is unknown or occurs twice, or a value that the setting does not take, with its line and column.
    pub fn from_words(text: impl AsRef<[u8]>) -> Result<Settings, WordFault> {
        Settings::default().with_words(text)
    }

    /// These settings but for those that a text names.
    ///
    /// # Errors
    /// As [`from_words`](Settings::from_words).
    pub fn with_words(self, text: impl AsRef<[u8]>) -> Result<Settings, WordFault> {
        let mut changed = Changed::new(self);
        for (number, line) in (1..).zip(text.as_ref().split(|&byte| byte == b'\n')) {
            let line = String::from_utf8_lossy(line);
            read_line(&mut changed, &line).map_err(|wrong| WordFault {
                line: number,
                column: wrong.at + 1,
                words: wrong.words,
            })?;
        }
        Ok(changed.settings)
    }

    /// These settings but for some, each by its name and its value, without quote marks.
    ///
    /// ```
    /// use leg_sheet::{Alignment, Settings, WordFault};
    ///
    /// let settings = Settings::default().with_named([("align", "center"), ("margin", "8,0,1,0")])?;
    /// assert_eq!(settings.horizontal(), Alignment::Center);
    /// assert!(settings.with_named([("align", "middle")]).is_err());
    /// # Ok::<(), WordFault>(())
    /// ```
    ///
    /// # Errors
    /// As [`from_words`](Settings::from_words), without a line and a column.
    pub fn with_named<'a>(
        self,
        values: impl IntoIterator<Item = (&'a str, &'a str)>,
    ) -> Result<Settings, WordFault> {
        let mut changed = Changed::new(self);
        for (name, value) in values {
            let word = find(name).and_then(|word| changed.once(word));
            let put = word.and_then(|word| changed.put(word, value));
            put.map_err(|wrong| WordFault {
                line: 0,
                column: 0,
                words: wrong.words,
            })?;
        }
        Ok(changed.settings)
    }

    /// All settings in words, which [`from_words`](Settings::from_words) reads back: a line each, and behind it as a comment what is allowed there.
    #[must_use]
    pub fn words(&self) -> String {
        let values = |word: &'static Word| Some((word, word.show(self)?));
        let mut text = String::new();
        for (word, value) in Word::all().iter().filter_map(values) {
            let setting = format!("{} {value}", word.name());
            text += &format!("{setting:<24} # {}\n", word.values());
        }
        text
    }
}

/// Settings, and the names of those that were changed.
struct Changed {
    settings: Settings,
    names: Vec<&'static str>,
}

impl Changed {
    fn new(settings: Settings) -> Changed {
        let names = Vec::new();
        Changed { settings, names }
    }

    /// A setting that was not changed yet.
    fn once(&self, word: &'static Word) -> Result<&'static Word, Wrong> {
        let name = word.name();
        if self.names.contains(&name) {
            return Err(Wrong::new(0, format!("{name}: given twice")));
        }
        Ok(word)
    }

    /// Changes one.
    fn put(&mut self, word: &Word, value: &str) -> Result<(), Wrong> {
        let name = word.name();
        let wrong = |wrong: Wrong| Wrong::new(wrong.at, format!("{name}: {}", wrong.words));
        let settings = word.set(self.settings, value).map_err(wrong)?;
        self.names.push(name);
        let is_marked = self.names.contains(&"marks") && self.names.contains(&"lines");
        if is_marked && [self.settings.marks, settings.marks].contains(&Marks::None) {
            return Err(wrong(Wrong::new(0, "without lines there are no marks")));
        }
        self.settings = settings;
        Ok(())
    }
}

fn find(name: &str) -> Result<&'static Word, Wrong> {
    let word = Word::all().iter().find(|word| word.name() == name);
    word.ok_or_else(|| {
        let names: Vec<&str> = Word::all().iter().map(Word::name).collect();
        let names = names.join(", ");
        Wrong::new(0, format!("no setting is called '{name}': {names}"))
    })
}

/// Reads a line: nothing, a comment, or a name and its value, and perhaps a comment behind it.
fn read_line(changed: &mut Changed, line: &str) -> Result<(), Wrong> {
    let line = line.trim_end();
    let name_at = line.len() - line.trim_start().len();
    let rest = &line[name_at..];
    if rest.is_empty() || rest.starts_with('#') {
        return Ok(());
    }
    let behind = |at: usize| move |wrong: Wrong| Wrong::new(at + wrong.at, wrong.words);
    let end = rest.find(char::is_whitespace).unwrap_or(rest.len());
    let word = find(&rest[..end]).and_then(|word| changed.once(word));
    let word = word.map_err(behind(name_at))?;
    let value = rest[end..].trim_start();
    let value_at = line.len() - value.len();
    let (inside, value) = value_of(word, value).map_err(behind(value_at))?;
    changed.put(word, value).map_err(behind(value_at + inside))
}

/// The value at the front of a text, and where in it: characters between two quote marks, as many as are allowed, or all before a comment.
fn value_of<'a>(word: &Word, text: &'a str) -> Result<(usize, &'a str), Wrong> {
    let counts = word.quoted();
    if counts.is_empty() || !text.starts_with('\'') {
        return Ok((0, before_comment(text)));
    }
    let mut values = counts
        .iter()
        .filter_map(|&count| between_quotes(text, count));
    let value = values.next().map(|value| (1, value));
    value.ok_or_else(|| {
        let counts: Vec<String> = counts.iter().map(usize::to_string).collect();
        let (name, counts) = (word.name(), counts.join(" or "));
        Wrong::new(
            0,
            format!("{name}: {counts} characters between quote marks"),
        )
    })
}

/// What is before a `#` that is first, or behind a space.
fn before_comment(text: &str) -> &str {
    let is_first = |at: usize| at == 0 || text[..at].ends_with(char::is_whitespace);
    let comment = text.match_indices('#').find(|&(at, _)| is_first(at));
    let end = comment.map_or(text.len(), |(at, _)| at);
    text[..end].trim_end()
}

/// This many characters between two quote marks, with no more than a comment behind them. They may be quote marks themselves.
fn between_quotes(text: &str, count: usize) -> Option<&str> {
    let inside = text.strip_prefix('\'')?;
    let (end, _) = inside.char_indices().nth(count)?;
    let rest = inside[end..].strip_prefix('\'')?;
    before_comment(rest).is_empty().then_some(&inside[..end])
}
