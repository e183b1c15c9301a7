//! The lines of a listing, as far as they are read, and how it ends.

use crate::calls::directory::Account;
use crate::list::measure::{counted, Measured};

/// Longer texts are not followed to their end, and no buffer is as long.
pub const LONGEST: usize = 1 << 20;

const TOO_SHORT: u64 = 6;

#[derive(Clone, Debug, PartialEq, Eq)]
pub enum End {
    Whole,
    Refused(u64),
    /// Lines follow; all buffers are shorter than those that are here.
    More,
    /// A line follows that is longer than any buffer.
    LongLine,
    /// Neither the oracle nor document 01 tells.
    Open(&'static str),
    /// The oracle stopped, and not for an overflow.
    Panic(String),
}

#[derive(Clone, Debug)]
pub struct Trace {
    /// Lines that were read without fault.
    pub text: Vec<u8>,
    /// The depth of the deepest node that has a line.
    pub depth: Option<u64>,
    /// A block's size for each node, as reading one goes through blocks of the tree.
    pub weight: u64,
    /// Of the directories that were read.
    pub account: Account,
    pub end: End,
    /// Of the whole listing, however long.
    pub measured: Measured,
}

impl Trace {
    pub fn only(end: End) -> Trace {
        let measured = Measured::by(&end, counted(b""));
        Trace { text: Vec::new(), depth: None, weight: 0, account: Account::None, end, measured }
    }

    /// The refusal's number for a buffer of `n` bytes, or none where the text is answered.
    pub fn refusal(&self, n: usize) -> Option<u64> {
        if self.text.len() > n {
            return Some(TOO_SHORT);
        }
        match self.end {
            End::Refused(number) => Some(number),
            End::LongLine => Some(TOO_SHORT),
            _ => None,
        }
    }

    /// The line that holds the byte at `at`, with its number from 1.
    pub fn line(&self, at: usize) -> (usize, &[u8]) {
        let before = &self.text[..at.min(self.text.len())];
        let start = before.iter().rposition(|&b| b == b'\n').map_or(0, |i| i + 1);
        let rest = &self.text[start..];
        let end = rest.iter().position(|&b| b == b'\n').unwrap_or(rest.len());
        (1 + before.iter().filter(|&&b| b == b'\n').count(), &rest[..end])
    }
}
