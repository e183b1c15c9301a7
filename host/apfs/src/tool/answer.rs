//! A call's answer, in a buffer that grows until it fits.

use crate::tool::failure::Failure;

const TOO_SHORT: u64 = 6;
const FIRST: usize = 4096;
/// No line without contents is longer.
pub const LONGEST: usize = 1 << 24;

pub type Call<'c> = &'c dyn Fn(&mut [u8]) -> i64;

/// The bytes written, or the refusal's number.
pub fn count(n: i64) -> Result<usize, u64> {
    usize::try_from(n).map_err(|_| n.unsigned_abs())
}

/// A call's answer, in a buffer of `longest` bytes at most, or the refusal's number.
pub fn bytes(longest: usize, call: Call) -> Result<Vec<u8>, u64> {
    bytes_from(FIRST, longest, call)
}

/// The same, the first buffer being of `length` bytes.
pub fn bytes_from(mut length: usize, longest: usize, call: Call) -> Result<Vec<u8>, u64> {
    loop {
        let mut out = zeros(length).ok_or(TOO_SHORT)?;
        match count(call(&mut out)) {
            Err(TOO_SHORT) if length < longest => length = longest.min(length.saturating_mul(4)),
            n => {
                out.truncate(n?);
                return Ok(out);
            }
        }
    }
}

/// None where there is no such room.
pub fn zeros(n: usize) -> Option<Vec<u8>> {
    let mut out = Vec::new();
    out.try_reserve_exact(n).ok()?;
    out.resize(n, 0);
    Some(out)
}

pub fn parsed<T>(what: &str, line: &[u8], parse: fn(&str) -> Option<T>) -> Result<T, Failure> {
    let read = std::str::from_utf8(line).ok().and_then(parse);
    read.ok_or_else(|| Failure::Other(format!("{what}: an answer of no known form")))
}
