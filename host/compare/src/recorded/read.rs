//! The file read back.

use std::sync::Arc;

use sticks::sums::crc32c;

use crate::calls::call::Call;
use crate::desks::request::Request;
use crate::recorded::asked::{Asked, Question, Told};
use crate::recorded::at_desk::AtDesk;
use crate::recorded::file::{answer, END, IMAGE, LONGEST, TITLE};

pub struct Recorded {
    pub image: Arc<Vec<u8>>,
    pub question: Question,
    /// The refusal or 0, the count, and the buffer's sum.
    pub answer: (u8, u32, u32),
}

impl Recorded {
    pub fn tells(&self, told: &Told) -> bool {
        self.answer == answer(&self.question, told)
    }

    /// Whether a call that gave this result, and left the buffer so, agrees.
    pub fn holds(&self, result: i64, buffer: &[u8]) -> bool {
        let (refusal, count, sum) = self.answer;
        let want = if refusal > 0 { -i64::from(refusal) } else { count.into() };
        result == want && sum == crc32c(!0, buffer)
    }
}

fn take<'a>(rest: &mut &'a [u8], n: usize) -> Result<&'a [u8], String> {
    let (part, after) = rest.split_at_checked(n).ok_or_else(|| format!("{} bytes left of {n}", rest.len()))?;
    *rest = after;
    Ok(part)
}

fn number(rest: &mut &[u8], width: usize) -> Result<u64, String> {
    Ok(take(rest, width)?.iter().rev().fold(0, |n, &x| n << 8 | u64::from(x)))
}

/// Writes the parts over the buffer.
fn lay(mut parts: &[u8], buffer: &mut [u8]) -> Result<(), String> {
    let mut at = 0;
    while !parts.is_empty() {
        at += number(&mut parts, 4)? as usize;
        let len = number(&mut parts, 4)? as usize;
        let part = take(&mut parts, len)?;
        buffer.get_mut(at..at + len).ok_or("a part past the image")?.copy_from_slice(part);
        at += len;
    }
    Ok(())
}

fn eight(input: &[u8]) -> Result<u64, String> {
    input.try_into().map(u64::from_le_bytes).map_err(|_| format!("a number of {} bytes", input.len()))
}

fn kind(n: u64) -> Result<u8, String> {
    n.try_into().map_err(|_| format!("a kind {n}"))
}

/// A call by a desk on a volume, with two of its numbers.
fn at_desk(volume: u64, a: u64, b: u64, mut input: &[u8]) -> Result<Asked, String> {
    let mut next = || number(&mut input, 8);
    let [desk, what, numbered, xid, c, from] = [next()?, next()?, next()?, next()?, next()?, next()?];
    let mut after = [0; 8];
    for count in &mut after {
        *count = next()?;
    }
    let request = Request { what, numbered, xid, volume, a, b, c, path: input.to_vec() };
    Ok(Asked::Desk(Box::new(AtDesk { desk, request, from, after })))
}

fn asked(op: u8, a: u64, b: u64, room: usize, input: &[u8]) -> Result<Asked, String> {
    Ok(match op {
        3 => Asked::Open,
        4 => Asked::Call(Call::Lookup { path: input.to_vec() }),
        5 => Asked::Call(Call::Read { id: a, offset: b, length: room }),
        6 => Asked::Call(Call::Entry { id: a, place: b }),
        7 => Asked::Call(Call::Xattr { id: a, place: b }),
        8 => Asked::Call(Call::Link { id: a }),
        9 => Asked::Call(Call::Extent { id: a, place: b }),
        10 => Asked::List,
        11 => Asked::Call(Call::Replaced { kind: eight(input)?, id: a, place: b }),
        12 => Asked::Checkpoints,
        13 => Asked::At(a, Box::new(Asked::Open)),
        14 => Asked::At(a, Box::new(Asked::Call(Call::Lookup { path: input.to_vec() }))),
        15 => Asked::At(a, Box::new(Asked::List)),
        16 => Asked::At(eight(input)?, Box::new(Asked::Call(Call::Read { id: a, offset: b, length: room }))),
        17 => Asked::WrongWords(input.to_vec()),
        18 => Asked::Measure,
        19 => Asked::At(a, Box::new(Asked::Measure)),
        20 => Asked::Call(Call::Mark { id: a, kind: kind(eight(input)?)?, place: b }),
        21 => {
            let (first, second) = input.split_at(input.len().min(8));
            let call = Call::Mark { id: a, kind: kind(eight(first)?)?, place: b };
            Asked::At(eight(second)?, Box::new(Asked::Call(call)))
        }
        22 => Asked::Call(Call::Marked { mark: input.to_vec() }),
        23 => Asked::At(a, Box::new(Asked::Call(Call::Marked { mark: input.to_vec() }))),
        _ => return Err(format!("no op {op}")),
    })
}

/// Every call, with the image that it is made on.
pub fn decode(mut rest: &[u8]) -> Result<Vec<Recorded>, String> {
    let (mut buffer, mut image, mut out) = (vec![0; LONGEST], Arc::default(), Vec::new());
    loop {
        let op = number(&mut rest, 1)? as u8;
        if op == END {
            return if rest.is_empty() { Ok(out) } else { Err(format!("{} bytes after the end", rest.len())) };
        }
        let refusal = number(&mut rest, 1)? as u8;
        let [volume, a, b] = [number(&mut rest, 8)?, number(&mut rest, 8)?, number(&mut rest, 8)?];
        let [room, count, sum] = [number(&mut rest, 4)?, number(&mut rest, 4)?, number(&mut rest, 4)?];
        let len = number(&mut rest, 4)? as usize;
        let input = take(&mut rest, len)?;
        match op {
            TITLE => {}
            IMAGE => {
                if b == 0 {
                    buffer.fill(0);
                }
                lay(input, &mut buffer)?;
                image = Arc::new(buffer.get(..a as usize).ok_or("an image too long")?.to_vec());
            }
            _ => {
                let asked = match op {
                    24 => at_desk(volume, a, b, input)?,
                    _ => asked(op, a, b, room as usize, input)?,
                };
                let question = Question { volume, asked, room: room as usize };
                let answer = (refusal, count as u32, sum as u32);
                out.push(Recorded { image: Arc::clone(&image), question, answer });
            }
        }
    }
}

/// The file that `crates/cases` replays.
pub fn of_cases() -> Result<Vec<Recorded>, String> {
    let file = concat!(env!("CARGO_MANIFEST_DIR"), "/../../crates/cases/stdin");
    decode(&std::fs::read(file).map_err(|e| format!("{file}: {e}"))?)
}
