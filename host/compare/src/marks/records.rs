//! The records of an id and a kind: keys and values by the Rust's scan, marks by the host's walk, each held against the
//! other.

use oracle::fs::Volume;
use oracle::nx::Container;
use oracle::probe;

use crate::calls::expected::{answered, Stop, Told};
use crate::marks::handed::{record, Record};
use crate::marks::walk;
use crate::marks::Mark;
use crate::opening::answer::{caught, Answer};
use crate::trees::Head;

pub const RECORD: &str = "record";
pub const PAST: &str = "past the end";

const OVERFLOW: u64 = 8;

/// How a scan ends.
#[derive(Clone, Copy, Debug, PartialEq, Eq)]
pub enum End {
    Whole,
    Refused(u64),
    /// A sum or product passed its end.
    Overflow,
}

pub struct Records {
    /// Up to a fault, each with the line of its key and value.
    pub list: Vec<(Mark, String)>,
    pub end: End,
}

impl Records {
    /// Stops where the scan and the walk differ.
    pub fn of(part: &[u8], c: &Container, v: &Volume, head: Head) -> Records {
        let mut lines = Vec::new();
        let scanned = caught(|| {
            probe::records(v, head.0, head.1, &mut |key, value| {
                lines.push(Record { key, value: Some(value) }.line());
                Ok(true)
            })
        });
        let end = match scanned {
            Ok(Ok(())) => End::Whole,
            Ok(Err(e)) => End::Refused(probe::class(&e)),
            Err(Answer::Overflow) => End::Overflow,
            Err(a) => panic!("{a}"),
        };
        let (marks, whole) = walk::marks(part, c, v, head);
        assert_eq!((marks.len(), whole), (lines.len(), end == End::Whole), "the walk's records of {head:?}");
        for (mark, line) in marks.iter().zip(&lines) {
            let found = record(part, c.block_size().into(), &mark.bytes()).map(|r| r.line());
            assert_eq!(found.as_ref(), Ok(line), "the walk's record of {head:?} at {mark:?}");
        }
        Records { list: marks.into_iter().zip(lines).collect(), end }
    }

    /// What is answered of the record after `place` others: what stands behind it is not read.
    pub fn told(&self, place: u64) -> Told {
        let found = usize::try_from(place).ok().and_then(|i| self.list.get(i));
        match (found, self.end) {
            (Some((mark, _)), _) => answered(mark.bytes(), RECORD),
            (None, End::Whole) => answered("", PAST),
            (None, End::Refused(n)) => Err(Stop::Oracle(n)),
            (None, End::Overflow) => Err(Stop::Added(OVERFLOW)),
        }
    }
}
