//! Holds the port's answer, and all of the buffer, against the oracle's.

use crate::calls::check::{pattern, REFUSALS};
use crate::opening::answer::Answer;
use crate::opening::outside::Outside;
use crate::opening::Open;

/// Longer than any answer: 103 numbers of up to 20 digits.
const LONG: usize = 2200;
pub const TOO_SHORT: i64 = -6;
const OVERFLOW: i64 = -8;

/// One call with a buffer of `n` bytes: the result must be `want`, and the buffer start with `text`
/// and be untouched after it.
pub fn call(port: Open, image: &[u8], n: usize, want: i64, text: &[u8]) -> Result<(), String> {
    let mut buffer = pattern(n);
    let got = port(image, &mut buffer);
    if got != want {
        let shown = String::from_utf8_lossy(&buffer[..(got.max(0) as usize).min(n)]).into_owned();
        return Err(format!("{got} with a buffer of {n} bytes, not {want}; it holds {shown:?}"));
    }
    let mut all = pattern(n);
    all[..text.len()].copy_from_slice(text);
    match (0..n).find(|&i| all[i] != buffer[i]) {
        Some(i) => Err(format!("{got} with a buffer of {n} bytes, whose byte {i} is {}, not {}", buffer[i], all[i])),
        None => Ok(()),
    }
}

/// Some answer that is one: a refusal that leaves the buffer alone, or a text within it.
pub fn any(port: Open, image: &[u8], allowed: &[i64]) -> Result<(), String> {
    let mut buffer = pattern(LONG);
    let got = port(image, &mut buffer);
    let kept = got.clamp(0, LONG as i64) as usize;
    let well = REFUSALS.contains(&got) || (1..=LONG as i64).contains(&got);
    let allowed = allowed.is_empty() || allowed.contains(&got);
    if well && allowed && buffer[kept..] == pattern(LONG)[kept..] {
        Ok(())
    } else {
        Err(format!("{got}, which is no answer here, or the buffer is not as it must be"))
    }
}

pub fn check(port: Open, image: &[u8], want: &Answer) -> Result<(), String> {
    match want {
        Answer::Text(t) => {
            let n = t.len();
            call(port, image, LONG, n as i64, t.as_bytes())?;
            call(port, image, n, n as i64, t.as_bytes())?;
            call(port, image, n - 1, TOO_SHORT, b"")?;
            call(port, image, 0, TOO_SHORT, b"")
        }
        Answer::Refused(number) => {
            let want = -(*number as i64);
            call(port, image, LONG, want, b"")?;
            call(port, image, 0, want, b"")
        }
        Answer::Overflow => any(port, image, &[]),
        Answer::Panic(m) => Err(format!("the oracle panicked: {m}")),
    }
}

/// What document 01 alone says of an image that the oracle isn't asked about.
pub fn check_outside(port: Open, image: &[u8], why: Outside) -> Result<(), String> {
    match why {
        Outside::Ring => any(port, image, &[-1, OVERFLOW]),
        Outside::Maps => any(port, image, &[]),
    }
}
