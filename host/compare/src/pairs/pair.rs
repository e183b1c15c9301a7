//! Two images, and whether a volume of each is the same to whoever calls.

use sticks::random::Random;

use crate::calls::call::Call;
use crate::calls::check::{pattern, Subject};
use crate::calls::expected::Expected;
use crate::calls::replaced;
use crate::pairs::mark::Marked;
use crate::pairs::Ports;

/// Longer listings are refused with 6 on both.
pub const LISTING: usize = 1 << 20;
const LINE: usize = 8192;

/// What a call answered, and the whole buffer after it.
#[derive(PartialEq, Eq)]
pub struct Said {
    pub n: i64,
    pub buffer: Vec<u8>,
}

pub struct Pair<'a> {
    pub ports: Ports<'a>,
    pub images: [&'a [u8]; 2],
    pub volume: u64,
}

impl Pair<'_> {
    pub fn list(&self, which: usize) -> Said {
        let mut buffer = pattern(LISTING);
        let n = (self.ports.list)(self.images[which], self.volume, &mut buffer);
        Said { n, buffer }
    }

    fn call(&self, which: usize, call: &Call) -> Said {
        let mut buffer = pattern(call.room().unwrap_or(LINE));
        let n = (self.ports.call)(self.images[which], self.volume, call, &mut buffer);
        Said { n, buffer }
    }

    /// What both answer.
    pub fn same_call(&self, call: &Call) -> Result<Said, String> {
        same(&call.to_string(), self.call(0, call), self.call(1, call))
    }

    /// The listing of both.
    pub fn same_list(&self) -> Result<Said, String> {
        same("the listing", self.list(0), self.list(1))
    }

    /// `first` is the listing of the first image.
    pub fn other_list(&self, first: &Said) -> Result<(), String> {
        if *first == self.list(1) {
            return Err("the listings are the same".into());
        }
        Ok(())
    }

    /// In a name of the first U+FFFD was typed, and in the second it is damaged there: the two are told apart by that
    /// name's number, and by nothing else. The bytes of a link are an attribute's contents too, and shown as such.
    pub fn marked(&self, m: &Marked, calls: &[Call], r: &mut Random) -> Result<(), String> {
        match m.link {
            Some(id) => drop(self.same_call(&Call::Link { id })?),
            None => {
                self.same_list()?;
                calls.iter().try_for_each(|call| self.same_call(call).map(drop))?;
            }
        }
        let (typed, damaged) = (replaced::planned(&m.typed), replaced::planned(&m.damaged));
        let both = || typed.iter().zip(&damaged).map(|((call, typed), (_, damaged))| (call, typed, damaged));
        let differ: Vec<&Call> = both().filter(|(_, a, b)| a.answer != b.answer).map(|(call, ..)| call).collect();
        if differ != [&m.call] {
            return Err(format!("the plans differ in {differ:?} and not in {}", m.call));
        }
        for (call, typed, damaged) in both() {
            self.number(0, call, typed, r)?;
            self.number(1, call, damaged, r)?;
        }
        Ok(())
    }

    fn number(&self, which: usize, call: &Call, want: &Expected, r: &mut Random) -> Result<(), String> {
        let subject = Subject { port: self.ports.call, image: self.images[which], volume: self.volume, call };
        subject.check(want, r).map_err(|e| format!("{call}, {}: {e}", ["typed", "damaged"][which]))
    }
}

fn same(what: &str, a: Said, b: Said) -> Result<Said, String> {
    if a.n != b.n {
        return Err(format!("{what}: {} and {}", a.n, b.n));
    }
    match a.buffer.iter().zip(&b.buffer).position(|(x, y)| x != y) {
        Some(i) => Err(format!("{what}: {} from both, but byte {i} of the buffers differs", a.n)),
        None => Ok(a),
    }
}
