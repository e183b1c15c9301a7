//! A mark that is handed in: a second account, from the request's sentences.

use oracle::nx::Container;

use crate::calls::expected::{answered, Stop, Told};
use crate::calls::line::hex;
use crate::maps::node::number;
use crate::marks::LENGTH;

const PASSES: u64 = 1;
const MISSING: u64 = 0xffff_ffff;

/// How answers are counted.
pub const SEEN: [&str; 4] = ["key and value", "an empty key", "an empty value", "no value"];

/// The bytes that a mark leads to; none for a missing value.
pub struct Record<'i> {
    pub key: &'i [u8],
    pub value: Option<&'i [u8]>,
}

impl Record<'_> {
    pub fn line(&self) -> String {
        format!("(record {} {})\n", hex(self.key), self.value.map_or("-".into(), hex))
    }

    fn kind(&self) -> &'static str {
        match self.value {
            _ if self.key.is_empty() => SEEN[1],
            None => SEEN[3],
            Some([]) => SEEN[2],
            Some(_) => SEEN[0],
        }
    }
}

/// "one handed in whose parts pass its block, or whose block passes the image, is 1; nothing else is tested". Sums and
/// products here pass no end.
pub fn record<'i>(image: &'i [u8], block_size: u64, mark: &[u8]) -> Result<Record<'i>, u64> {
    if mark.len() != LENGTH {
        return Err(PASSES);
    }
    let field = |at: usize, width: usize| number(mark, at, width).expect("a field");
    let end = (u128::from(field(0, 8)) + 1) * u128::from(block_size);
    if end > image.len() as u128 {
        return Err(PASSES);
    }
    let end = end as usize;
    let block = &image[end - block_size as usize..end];
    let part = |at: usize| {
        let (offset, length) = (field(at, 4), field(at + 4, 4));
        if offset + length > block_size {
            return Err(PASSES);
        }
        Ok(&block[offset as usize..(offset + length) as usize])
    };
    let key = part(8)?;
    let missing = [16, 20].iter().all(|at| field(*at, 4) == MISSING);
    Ok(Record { key, value: if missing { None } else { Some(part(16)?) } })
}

/// Of an opened container.
pub fn told(part: &[u8], c: &Container, mark: &[u8]) -> Told {
    let record = record(part, c.block_size().into(), mark).map_err(Stop::Added)?;
    answered(record.line(), record.kind())
}
