//! A file of cases and their answers, for replay without any Rust.
//!
//! A record is: op (1 byte, [`Leaf`] as a number), a, b, the expected answer (8 bytes each), the
//! input's length (4 bytes), the input. Numbers are little-endian. An op of 0 ends the file.

use crate::leaf::{Case, Leaf};

#[derive(Clone, Debug, PartialEq, Eq)]
pub struct Record {
    pub leaf: Leaf,
    pub a: u64,
    pub b: u64,
    pub expected: u64,
    pub input: Vec<u8>,
}

pub const HEAD: usize = 1 + 3 * 8 + 4;

impl Record {
    pub fn case(&self) -> Case<'_> {
        Case::new(self.leaf, self.a, self.b, &self.input)
    }

    fn encode(&self, out: &mut Vec<u8>) {
        out.push(self.leaf as u8);
        for n in [self.a, self.b, self.expected] {
            out.extend(n.to_le_bytes());
        }
        out.extend((self.input.len() as u32).to_le_bytes());
        out.extend(&self.input);
    }
}

pub fn encode(records: &[Record]) -> Vec<u8> {
    let mut out = Vec::new();
    records.iter().for_each(|r| r.encode(&mut out));
    out.push(0);
    out
}

fn take<'a>(rest: &mut &'a [u8], n: usize) -> Result<&'a [u8], String> {
    let (part, after) = rest.split_at_checked(n).ok_or_else(|| format!("{} bytes left of {n}", rest.len()))?;
    *rest = after;
    Ok(part)
}

fn number(rest: &mut &[u8], width: usize) -> Result<u64, String> {
    Ok(take(rest, width)?.iter().rev().fold(0, |n, &x| n << 8 | u64::from(x)))
}

/// Reads a file back; an error says which record is not one.
pub fn decode(mut rest: &[u8]) -> Result<Vec<Record>, String> {
    let mut records = Vec::new();
    loop {
        let at = |e: String| format!("record {}: {e}", records.len());
        let op = number(&mut rest, 1).map_err(at)? as u8;
        if op == 0 {
            return if rest.is_empty() { Ok(records) } else { Err(format!("{} bytes after the end", rest.len())) };
        }
        let leaf = Leaf::from_op(op).ok_or_else(|| at(format!("no leaf {op}")))?;
        let a = number(&mut rest, 8).map_err(at)?;
        let b = number(&mut rest, 8).map_err(at)?;
        let expected = number(&mut rest, 8).map_err(at)?;
        let len = number(&mut rest, 4).map_err(at)? as usize;
        let input = take(&mut rest, len).map_err(at)?.to_vec();
        if leaf == Leaf::ReadsAs && a > len as u64 {
            return Err(at("a name longer than its input".into()));
        }
        records.push(Record { leaf, a, b, expected, input });
    }
}
