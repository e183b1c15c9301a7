//! Why a command came to nothing.

use std::fmt;
use std::io;

use apfs::refusal;

/// A refusal, as it is told.
pub struct Refused {
    /// The file, and what was asked of it.
    what: String,
    number: u64,
    words: String,
    advice: String,
}

pub enum Failure {
    /// How to call it.
    Usage(String),
    /// A file and what became of it.
    File(String, io::Error),
    Refused(Refused),
    Other(String),
    Output(io::Error),
}

impl From<io::Error> for Failure {
    fn from(e: io::Error) -> Failure {
        Failure::Output(e)
    }
}

impl Failure {
    pub fn refused(what: impl Into<String>, number: u64) -> Failure {
        Failure::told(what, number, refusal::words(number), refusal::advice(number))
    }

    /// The same of what was read at a checkpoint, the latest where none was asked for.
    pub fn refused_at(checkpoint: Option<u64>, what: impl Into<String>, number: u64) -> Failure {
        let advice = if checkpoint.is_some() { refusal::advice_at } else { refusal::advice };
        Failure::told(what, number, refusal::words(number), advice(number))
    }

    /// In other words than those of every refusal of that number.
    pub fn told(what: impl Into<String>, number: u64, words: impl Into<String>, advice: impl Into<String>) -> Failure {
        Failure::Refused(Refused { what: what.into(), number, words: words.into(), advice: advice.into() })
    }
}

impl fmt::Display for Failure {
    fn fmt(&self, f: &mut fmt::Formatter) -> fmt::Result {
        match self {
            Failure::Usage(words) => write!(f, "{words}"),
            Failure::File(name, e) => write!(f, "{name}: {e}"),
            Failure::Refused(r) => write!(f, "{}: {} (refusal {}); {}", r.what, r.words, r.number, r.advice),
            Failure::Other(what) => write!(f, "{what}"),
            Failure::Output(e) => write!(f, "writing: {e}"),
        }
    }
}
