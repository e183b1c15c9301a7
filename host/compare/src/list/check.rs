//! Holds the port's answer, and all of the buffer, against what is expected.

use std::fmt;

use crate::calls::check::{pattern, REFUSALS};
use crate::list::trace::{End, Trace};
use crate::list::Port;

const SHOWN: usize = 400;
const TOO_SHORT: i64 = -6;

/// What was asked for.
#[derive(Clone, Copy, Debug, PartialEq, Eq)]
pub enum Of {
    List,
    Measure,
}

pub struct Mismatch {
    pub of: Of,
    /// The buffer's length.
    pub length: usize,
    /// What must be answered: bytes, or minus the refusal's number.
    pub want: i64,
    pub got: i64,
    pub words: String,
}

impl fmt::Display for Mismatch {
    fn fmt(&self, f: &mut fmt::Formatter) -> fmt::Result {
        let of = if self.of == Of::List { "listing" } else { "measuring" };
        write!(f, "{of} with a buffer of {} bytes: {} and not {}: {}", self.length, self.got, self.want, self.words)
    }
}

pub struct Subject<'a> {
    pub port: Port<'a>,
    pub image: &'a [u8],
    pub volume: u64,
}

fn shown(line: &[u8]) -> String {
    let start = &line[..line.len().min(SHOWN)];
    format!("\"{}\"{}", start.escape_ascii(), if line.len() > SHOWN { ".." } else { "" })
}

fn line_at(text: &[u8], at: usize) -> &[u8] {
    let start = text[..at].iter().rposition(|&b| b == b'\n').map_or(0, |i| i + 1);
    text[start..].split(|&b| b == b'\n').next().unwrap_or_default()
}

impl Subject<'_> {
    fn ask(&self, n: usize) -> (i64, Vec<u8>) {
        let mut buffer = pattern(n);
        let got = (self.port)(self.image, self.volume, &mut buffer);
        (got, buffer)
    }

    pub fn check(&self, t: &Trace, n: usize) -> Result<(), Mismatch> {
        let (got, buffer) = self.ask(n);
        let want = match (&t.end, t.refusal(n)) {
            (_, Some(number)) => -(number as i64),
            (End::Open(_), None) => got,
            (End::Panic(m), None) => {
                let words = format!("the oracle panicked: {m}");
                return Err(Mismatch { of: Of::List, length: n, want: 0, got, words });
            }
            (_, None) => t.text.len() as i64,
        };
        let well = REFUSALS.contains(&got) || (0..=n as i64).contains(&got);
        if got != want || !well {
            let words = self.apart(t, got, &buffer);
            return Err(Mismatch { of: Of::List, length: n, want, got, words });
        }
        let wrong = |at: usize| Err(Mismatch { of: Of::List, length: n, want, got, words: self.byte(t, at, &buffer) });
        left(t, got, &buffer).map_or(Ok(()), wrong)
    }

    /// Of answers that differ, the first line that does.
    fn apart(&self, t: &Trace, got: i64, buffer: &[u8]) -> String {
        if got >= 0 {
            let text = &buffer[..buffer.len().min(got as usize)];
            let same = text.iter().zip(&t.text).take_while(|(a, b)| a == b).count();
            return self.byte(t, same, text);
        }
        let at = self.refused_after(t.text.len());
        let (number, line) = t.line(at);
        format!("refused after {at} bytes, before line {number}, {}", shown(line))
    }

    /// The shortest buffer that is not too short, where that is no longer than `n`.
    fn refused_after(&self, n: usize) -> usize {
        let (mut low, mut high) = (0, n);
        while low < high {
            let mid = low + (high - low) / 2;
            if self.ask(mid).0 == TOO_SHORT {
                low = mid + 1;
            } else {
                high = mid;
            }
        }
        low
    }

    fn byte(&self, t: &Trace, at: usize, buffer: &[u8]) -> String {
        let (number, line) = t.line(at);
        let holds = shown(line_at(buffer, at.min(buffer.len())));
        format!("byte {at} of the buffer; line {number} is {}, and the port's {holds}", shown(line))
    }
}

/// The first byte of the buffer that is not as it must be left.
fn left(t: &Trace, got: i64, buffer: &[u8]) -> Option<usize> {
    if got < 0 {
        return buffer.iter().position(|&b| b != 0);
    }
    let mut all = pattern(buffer.len());
    let n = got as usize;
    if matches!(t.end, End::Open(_)) {
        all[..n].copy_from_slice(&buffer[..n]);
    } else {
        all[..n].copy_from_slice(&t.text);
    }
    (0..all.len()).find(|&i| all[i] != buffer[i])
}
