//! Request 09: how long a listing will be, and how deep, told without its text.

use std::fmt;

use sticks::random::Random;

use crate::calls::check::pattern;
use crate::list::check::{Mismatch, Of, Subject};
use crate::list::totals;
use crate::list::trace::{End, Trace};

/// A longer listing is not measured.
pub const MOST: u64 = 4_294_967_295;
pub const TOO_LONG: u64 = 14;

const TOO_SHORT: i64 = -6;
const REFUSALS: std::ops::RangeInclusive<i64> = -(TOO_LONG as i64)..=-1;
/// Longer than any line.
const ROOM: usize = 64;
/// Longer listings are not asked for, however much room they are measured to need.
const LISTED: u64 = 1 << 23;
/// Of a volume whose reading takes longer, fewer buffers are tried.
const HEAVY: u64 = 1 << 17;

#[derive(Clone, Copy, Debug, PartialEq, Eq)]
pub struct Measure {
    /// In bytes, the totals and all else included.
    pub length: u64,
    /// Of the deepest node, the root's being 0.
    pub depth: u64,
}

impl fmt::Display for Measure {
    fn fmt(&self, f: &mut fmt::Formatter) -> fmt::Result {
        writeln!(f, "(measure {} {})", self.length, self.depth)
    }
}

/// What must be answered.
#[derive(Clone, Debug, PartialEq, Eq)]
pub enum Measured {
    Got(Measure),
    Refused(u64),
    /// Neither the oracle nor the papers tell.
    Open(&'static str),
    /// It has more nodes than are walked through here.
    Vast,
}

/// By the text of a whole listing alone. A node at depth 0 stands in the volume's bracket and has others in its own, the
/// third in one another; each level below has two more, the entry's and the node's.
pub fn counted(text: &[u8]) -> Measure {
    let (mut open, mut most) = (0u64, 0u64);
    for b in text {
        match b {
            b'(' => open += 1,
            b')' => open = open.saturating_sub(1),
            _ => {}
        }
        most = open.max(most);
    }
    Measure { length: text.len() as u64, depth: most.saturating_sub(3) / 2 }
}

impl Measured {
    /// Of a walk that ended so, having counted `m`.
    pub fn by(end: &End, m: Measure) -> Measured {
        match end {
            End::Whole => Measured::Got(m),
            End::Refused(number) => Measured::Refused(*number),
            End::More | End::LongLine => Measured::Vast,
            End::Open(why) => Measured::Open(why),
            End::Panic(_) => Measured::Open("panic"),
        }
    }

    /// The result with a buffer of `room` bytes, and what it then starts with; none where anything may be answered.
    fn answer(&self, room: usize) -> Option<(i64, Vec<u8>)> {
        match self {
            Measured::Got(m) => Some(match m.to_string().into_bytes() {
                line if line.len() > room => (TOO_SHORT, Vec::new()),
                line => (line.len() as i64, line),
            }),
            Measured::Refused(number) => Some((-(*number as i64), Vec::new())),
            Measured::Open(_) | Measured::Vast => None,
        }
    }

    /// The refusal's number for a buffer of `room` bytes, or none where the line is answered or nothing is known.
    pub fn refusal(&self, room: usize) -> Option<u64> {
        self.answer(room).filter(|(n, _)| *n < 0).map(|(n, _)| n.unsigned_abs())
    }
}

/// Lengths of buffers for its line: one that it fills, one that is a byte too short, a longer one and a shorter one. A
/// fault comes before all of them.
pub fn rooms(t: &Trace, r: &mut Random) -> Vec<usize> {
    match &t.measured {
        Measured::Got(m) => {
            let n = m.to_string().len();
            let others = [n - 1, n + 1 + r.place(40), r.place(n)];
            if t.weight > HEAVY {
                vec![n, r.pick(&others)]
            } else {
                [&[n], &others[..]].concat()
            }
        }
        Measured::Refused(_) => vec![0, r.pick(&[1, 12, ROOM, 300])],
        Measured::Open(_) => vec![ROOM],
        Measured::Vast => Vec::new(),
    }
}

/// Whether a listing that is not followed to its end is short enough to be asked for.
pub fn listed(t: &Trace) -> Option<Measure> {
    match t.measured {
        Measured::Got(m) if t.end != End::Whole && m.length <= LISTED => Some(m),
        _ => None,
    }
}

impl Subject<'_> {
    /// Of a port that lists, and a text that is longer than those followed here: with as much room as it is measured to
    /// need, and a byte less. By its own totals and brackets it must be whole.
    pub fn fits(&self, t: &Trace, m: Measure) -> Result<(), Mismatch> {
        let n = m.length as usize;
        for (room, want) in [(n, n as i64), (n - 1, TOO_SHORT)] {
            let mut buffer = vec![b'?'; room];
            let got = (self.port)(self.image, self.volume, &mut buffer);
            let whole = || buffer.starts_with(&t.text) && counted(&buffer) == m && totals::held(&buffer).is_ok();
            let well = if want < 0 { buffer.iter().all(|&b| b == 0) } else { whole() };
            if got != want || !well {
                let words = "a text that is not whole, or not wiped".into();
                return Err(Mismatch { of: Of::List, length: room, want, got, words });
            }
        }
        Ok(())
    }

    /// Of a port that measures, with a buffer of `room` bytes. A refusal leaves it as it was, and so is all behind the line.
    pub fn measures(&self, want: &Measured, room: usize) -> Result<(), Mismatch> {
        let mut buffer = pattern(room);
        let got = (self.port)(self.image, self.volume, &mut buffer);
        let written = buffer[..got.clamp(0, room as i64) as usize].to_vec();
        let (result, line) = want.answer(room).unwrap_or((got, written));
        let well = REFUSALS.contains(&got) || (0..=room as i64).contains(&got);
        let mut left = pattern(room);
        left[..line.len()].copy_from_slice(&line);
        if got == result && well && buffer == left {
            return Ok(());
        }
        let words = format!("the buffer is \"{}\", not \"{}\"", buffer.escape_ascii(), left.escape_ascii());
        Err(Mismatch { of: Of::Measure, length: room, want: result, got, words })
    }
}
