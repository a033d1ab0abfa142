//! Why there is no answer.

use std::fmt;
use std::io::{self, ErrorKind};

use leg_sheet::Refusal;

/// The exit status of a refusal.
pub const REFUSED: u8 = 1;

/// The exit status where no one reads the answer any more, as of a command that the signal SIGPIPE ends.
const UNREAD: u8 = 128 + 13;

pub enum Fault {
    /// What was refused, with its number, and in words.
    Refused(String, Refusal, String),
    /// What is wrong with a typed list or with settings in words, as it is shown.
    Mistake(String),
    /// What is no question paper of which key, and why.
    Unlike(String, String, String),
    /// What is wrong with the words.
    Usage(String),
    /// What could not be read or written.
    Failed(String, io::Error),
}

impl Fault {
    /// A refusal in its own words.
    pub fn refused(name: &str, refusal: Refusal) -> Fault {
        Fault::Refused(name.into(), refusal, refusal.sentence().into())
    }

    pub fn status(&self) -> u8 {
        match self {
            Fault::Refused(..) | Fault::Mistake(_) | Fault::Unlike(..) => REFUSED,
            Fault::Usage(_) => 2,
            _ if self.is_silent() => UNREAD,
            Fault::Failed(..) => 3,
        }
    }

    /// Whether it is not worth reporting: the reader of the output has ended.
    pub fn is_silent(&self) -> bool {
        matches!(self, Fault::Failed(_, error) if error.kind() == ErrorKind::BrokenPipe)
    }
}

/// With the command's name in front; a mistake begins with its place, as editors and other tools look for it.
impl fmt::Display for Fault {
    fn fmt(&self, f: &mut fmt::Formatter<'_>) -> fmt::Result {
        match self {
            Fault::Refused(name, refusal, words) => {
                write!(f, "legs: {name}: refused {}: {words}", refusal.number())
            }
            Fault::Mistake(shown) => f.write_str(shown),
            Fault::Unlike(paper, key, why) => {
                write!(f, "legs: {paper}: not a question paper of {key}: {why}")
            }
            Fault::Usage(message) => write!(f, "legs: usage: {message}; 'legs --help' says more"),
            Fault::Failed(name, error) => write!(f, "legs: {name}: {error}"),
        }
    }
}
