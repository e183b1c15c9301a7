//! A port's calls on bookmarks, with one slip or none.

mod form;
mod mark;
mod marked;
mod slip;

use compare::calls::call::Call;

use super::{test, with_opened, Answer, Last, Opened};
pub use slip::{Slip, ALL};
use Slip as S;

const MARK: usize = 24;
/// The shortest line, of an empty key and a missing value.
const LINE: usize = 13;

fn bytes(opened: &Answer<Opened>, volume: u64, call: &Call, room: usize, slip: Slip) -> Answer<Vec<u8>> {
    let Opened { part, c } = opened.as_ref().map_err(|n| *n)?;
    match call {
        Call::Mark { id, kind, place } => {
            test(room >= MARK || slip != S::MarkShortBeforeScan, 6)?;
            let bytes = mark::bytes(c, volume, (*id, *kind, *place), slip)?;
            test(room >= MARK || slip != S::MarkShortPastTheEnd, 6)?;
            Ok(bytes)
        }
        Call::Marked { mark } => {
            test(room >= LINE || slip != S::SixBeforeOne, 6)?;
            marked::line(part, c, mark, slip)
        }
        other => unreachable!("{other} is no call on bookmarks"),
    }
}

/// What is wrong with the buffer of the call.
enum Buffer {
    Right,
    FullIsShort,
    HalfWritten,
    Wiped,
    OnePast,
}

fn buffer(call: &Call, slip: Slip) -> Buffer {
    match (call, slip) {
        (Call::Mark { .. }, S::MarkFullIsShort) | (Call::Marked { .. }, S::FullIsShort) => Buffer::FullIsShort,
        (Call::Mark { .. }, S::MarkHalfWritten) | (Call::Marked { .. }, S::HalfWritten) => Buffer::HalfWritten,
        (Call::Mark { .. }, S::MarkWiped) | (Call::Marked { .. }, S::Wiped) => Buffer::Wiped,
        (Call::Mark { .. }, S::MarkOnePast) | (Call::Marked { .. }, S::OnePast) => Buffer::OnePast,
        _ => Buffer::Right,
    }
}

/// What a call answers before anything is opened.
fn first(call: &Call, room: usize, slip: Slip) -> Answer<()> {
    match call {
        Call::Mark { .. } => test(room >= MARK || slip != S::MarkShortFirst, 6),
        Call::Marked { mark } => {
            test(room >= LINE || slip != S::ShortFirst, 6)?;
            test(mark.len() == MARK || slip != S::LengthBeforeOpening, 1)
        }
        _ => Ok(()),
    }
}

pub fn answer(last: &Last, image: &[u8], volume: u64, call: &Call, out: &mut [u8], slip: Slip) -> i64 {
    let room = out.len();
    let found = first(call, room, slip)
        .and_then(|()| with_opened(last, image, |opened| bytes(opened, volume, call, room, slip)));
    let buffer = buffer(call, slip);
    let fits = |n: usize| n + usize::from(n > 0 && matches!(buffer, Buffer::FullIsShort)) <= room;
    match found {
        Ok(b) if fits(b.len()) => {
            out[..b.len()].copy_from_slice(&b);
            out[b.len()..].iter_mut().take(1).filter(|_| matches!(buffer, Buffer::OnePast)).for_each(|x| *x = 0);
            b.len() as i64
        }
        Ok(b) => {
            out.iter_mut().zip(b).filter(|_| matches!(buffer, Buffer::HalfWritten)).for_each(|(to, from)| *to = from);
            out.iter_mut().filter(|_| matches!(buffer, Buffer::Wiped)).for_each(|x| *x = 0);
            -6
        }
        Err(n) => {
            out.iter_mut().filter(|_| matches!(buffer, Buffer::Wiped)).for_each(|x| *x = 0);
            -n
        }
    }
}
