//! What a bookmark that is handed in leads to.

use compare::calls::line::hex;
use compare::opening::answer::caught;
use oracle::btree::Node;
use oracle::nx::Container;
use oracle::probe;
use sticks::block::is_sealed;

use super::form::{Fields, MISSING};
use super::slip::Slip as S;
use crate::stand::{class, test, Answer};

/// The image, its block size and block count.
struct Ground<'a> {
    image: &'a [u8],
    size: u64,
    count: u64,
    slip: S,
}

impl<'a> Ground<'a> {
    fn has(&self, slip: S) -> bool {
        self.slip == slip
    }

    /// Where the block begins.
    fn block(&self, block: u64) -> Answer<usize> {
        let one = if self.has(S::TwoForBlock) { 2 } else { 1 };
        let next = block.checked_add(1).or(if self.has(S::NextWraps) { Some(0) } else { None });
        let next = next.ok_or(if self.has(S::EightForProduct) { 8 } else { one })?;
        let end = match self.slip {
            S::ProductWraps => Some(next.wrapping_mul(self.size)),
            S::PartOfBlockTaken => block.checked_mul(self.size),
            S::LastBlockRefused => next.checked_mul(self.size).and_then(|n| n.checked_add(self.size)),
            _ => next.checked_mul(self.size),
        };
        let end = end.ok_or(if self.has(S::EightForProduct) { 8 } else { one })?;
        let length = self.image.len() as u64;
        let fits = match self.slip {
            S::ByTheCount => block < self.count,
            S::ByTheCountToo => end <= length && block < self.count,
            S::PartOfBlockTaken => end < length,
            _ => end <= length,
        };
        test(fits && !(block == 0 && self.has(S::ZeroRefused)), one)?;
        let at = block.wrapping_mul(self.size) as usize;
        let bytes = self.image.get(at..at.saturating_add(self.size as usize)).unwrap_or_default();
        test(!self.has(S::NodesAlone) || Node::parse(bytes.to_vec()).is_ok(), 2)?;
        test(!self.has(S::SoundAlone) || is_sealed(bytes), 2)?;
        Ok(at)
    }

    /// The bytes of a key or a value in the block that begins there.
    fn part(&self, at: usize, [offset, length]: [u32; 2], is_key: bool) -> Answer<&'a [u8]> {
        let end = match self.slip {
            S::SumsOf32Bits => offset.wrapping_add(length).into(),
            S::KeyOneMore if is_key => (u64::from(offset) + u64::from(length)).saturating_sub(1),
            S::ValueOneMore if !is_key => (u64::from(offset) + u64::from(length)).saturating_sub(1),
            _ => u64::from(offset) + u64::from(length),
        };
        let edge = match self.slip {
            S::KeyEdgeRefused => is_key && end == self.size,
            S::ValueEdgeRefused => !is_key && end == self.size,
            S::EndOffsetRefused => u64::from(offset) == self.size,
            _ => false,
        };
        let untested = self.has(if is_key { S::KeyUntested } else { S::ValueUntested });
        test(untested || end <= self.size && !edge, if self.has(S::TwoForParts) { 2 } else { 1 })?;
        let start = at.saturating_add(offset as usize);
        Ok(self.image.get(start..start.saturating_add(length as usize)).unwrap_or_default())
    }

    fn is_missing(&self, value: [u32; 2]) -> bool {
        let is = value.map(|n| n == u32::MAX);
        match self.slip {
            S::MissingByOffset => is[0],
            S::MissingByLength => is[1],
            S::MissingByEither => is[0] || is[1],
            S::MissingRefused => false,
            S::EmptyAsMissing => is[0] && is[1] || value[1] == 0,
            _ => is[0] && is[1],
        }
    }

    fn line(&self, mark: Fields) -> Answer<String> {
        let at = self.block(mark.block)?;
        let missing = self.is_missing(mark.value);
        let free =
            mark.key == MISSING && self.has(S::MissingKeyTaken) || missing && self.has(S::KeyUntestedWithoutValue);
        let key = if free { self.part(at, mark.key, true).unwrap_or_default() } else { self.part(at, mark.key, true)? };
        let value = match missing {
            true if self.has(S::MissingAsEmpty) => "x".into(),
            true => "-".into(),
            false => hex(self.part(at, mark.value, false)?),
        };
        let key = hex(key);
        Ok(match self.slip {
            S::ValueShownFirst => format!("(record {value} {key})\n"),
            S::UpperHex => format!("(record x{} {value})\n", key[1..].to_uppercase()),
            S::NoLineEnd => format!("(record {key} {value})"),
            _ => format!("(record {key} {value})\n"),
        })
    }
}

pub fn line(part: &[u8], c: &Container, mark: &[u8], slip: S) -> Answer<Vec<u8>> {
    if slip == S::VolumeOpened {
        caught(|| c.volume(0).map(|_| ()).map_err(class)).unwrap_or(Err(8))?;
    }
    let taken = match slip {
        S::ShorterTaken => (20..=24).contains(&mark.len()),
        S::LongerTaken => mark.len() >= 24,
        _ => mark.len() == 24,
    };
    test(taken, if slip == S::TwoForLength { 2 } else { 1 })?;
    let mut whole = mark.to_vec();
    whole.resize(24, 0);
    let ground = Ground { image: part, size: c.block_size().into(), count: probe::block_count(c), slip };
    ground.line(Fields::read(&whole, slip)).map(String::into_bytes)
}
