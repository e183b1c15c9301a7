//! Holds the port's answer to a call, and all of the buffer, against what is expected.

use sticks::random::Random;

use crate::calls::call::Call;
use crate::calls::expected::{Answer, Expected};
use crate::calls::Port;

const TOO_SHORT: i64 = -6;
/// Those of calls that read an image.
pub const REFUSALS: std::ops::RangeInclusive<i64> = -13..=-1;

pub struct Subject<'a> {
    pub port: Port<'a>,
    pub image: &'a [u8],
    pub volume: u64,
    pub call: &'a Call,
}

pub fn pattern(n: usize) -> Vec<u8> {
    (0..n).map(|i| (i * 37 + 11) as u8).collect()
}

fn shown(bytes: &[u8]) -> String {
    let start = &bytes[..bytes.len().min(300)];
    start.escape_ascii().to_string()
}

impl Subject<'_> {
    fn ask(&self, out: &mut [u8]) -> i64 {
        (self.port)(self.image, self.volume, self.call, out)
    }

    /// One call with a buffer of `n` bytes: the result must be `want`, and the buffer start with
    /// `bytes` and be untouched after them.
    fn once(&self, n: usize, want: i64, bytes: &[u8]) -> Result<(), String> {
        let mut buffer = pattern(n);
        let got = self.ask(&mut buffer);
        if got != want {
            let holds = shown(&buffer[..(got.max(0) as usize).min(n)]);
            return Err(format!("{got} with a buffer of {n} bytes, not {want}; it holds \"{holds}\""));
        }
        let mut all = pattern(n);
        all[..bytes.len()].copy_from_slice(bytes);
        match (0..n).find(|&i| all[i] != buffer[i]) {
            Some(i) => Err(format!("{got} with a buffer of {n}, whose byte {i} is {}, not {}", buffer[i], all[i])),
            None => Ok(()),
        }
    }

    /// Some answer that is one: a refusal that leaves the buffer alone, or bytes within it.
    fn any(&self, n: usize) -> Result<(), String> {
        let mut buffer = pattern(n);
        let got = self.ask(&mut buffer);
        let kept = got.clamp(0, n as i64) as usize;
        let well = REFUSALS.contains(&got) || (0..=n as i64).contains(&got);
        if well && buffer[kept..] == pattern(n)[kept..] {
            Ok(())
        } else {
            Err(format!("{got}, which is no answer, or the buffer is not as it must be"))
        }
    }

    /// With a buffer that is longer than the text, and another that fits or is too short.
    fn text(&self, text: &[u8], random: &mut Random) -> Result<(), String> {
        let n = text.len();
        self.once(n + 1 + random.place(60), n as i64, text)?;
        match random.below(4) {
            0 | 1 => self.once(n, n as i64, text),
            _ if n == 0 => Ok(()),
            2 => self.once(n - 1, TOO_SHORT, b""),
            _ => self.once(random.place(n), TOO_SHORT, b""),
        }
    }

    /// With one buffer that is as long as the text or longer, and one time in four with one that is too short.
    fn line(&self, text: &[u8], random: &mut Random) -> Result<(), String> {
        let n = text.len();
        let more = if random.chance(1, 2) { 0 } else { 1 + random.place(60) };
        self.once(n + more, n as i64, text)?;
        match random.below(8) {
            _ if n == 0 => Ok(()),
            0 => self.once(n - 1, TOO_SHORT, b""),
            1 => self.once(random.place(n), TOO_SHORT, b""),
            _ => Ok(()),
        }
    }

    /// All names and records of a stick are asked about: so many that one buffer each is mostly enough.
    fn is_one_of_many(&self) -> bool {
        matches!(self.call, Call::Replaced { .. } | Call::Mark { .. } | Call::Marked { .. })
    }

    pub fn check(&self, want: &Expected, random: &mut Random) -> Result<(), String> {
        let asked = self.call.room();
        match (&want.answer, asked) {
            (Answer::Bytes(b), Some(length)) => self.once(length, b.len() as i64, b),
            (Answer::Bytes(b), None) if self.is_one_of_many() => self.line(b, random),
            (Answer::Bytes(b), None) => self.text(b, random),
            (Answer::Refused(number), _) => {
                let n = asked.unwrap_or_else(|| random.pick(&[0, 40, 300]));
                self.once(n, -(*number as i64), b"")
            }
            (Answer::Any, _) => self.any(asked.unwrap_or(300)),
            (Answer::Panic(m), _) => Err(format!("the oracle panicked: {m}")),
        }
    }
}
