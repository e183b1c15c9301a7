//! A file's size by its id. No call gives an inode by its id, but a read tells how many bytes there are from an offset on.

const ROOM: usize = 1 << 16;

/// The bytes read into the buffer, or the refusal's number.
pub type Read<'r> = &'r dyn Fn(u64, &mut [u8]) -> Result<usize, u64>;

/// A file that fits in the buffer takes one read; of a larger one the end is searched for, a byte at a time.
pub fn told(read: Read) -> Result<u64, u64> {
    let n = read(0, &mut [0; ROOM])?;
    if n < ROOM {
        return Ok(n as u64);
    }
    let has = |offset: u64| -> Result<bool, u64> { Ok(read(offset, &mut [0])? > 0) };
    // There is a byte at `low`, and none at `high`.
    let (mut low, mut high) = (ROOM as u64 - 1, u64::MAX);
    while low < high / 2 {
        let next = 2 * low + 1;
        if has(next)? {
            low = next;
        } else {
            high = next;
            break;
        }
    }
    while high - low > 1 {
        let middle = low + (high - low) / 2;
        if has(middle)? {
            low = middle;
        } else {
            high = middle;
        }
    }
    Ok(high)
}

#[cfg(test)]
mod tests {
    use std::cell::Cell;

    use super::told;

    #[test]
    fn every_size_is_found() {
        for size in [0, 1, 65_535, 65_536, 65_537, 131_071, 131_072, 300_000, 1 << 40, 1 << 63, u64::MAX - 1, u64::MAX]
        {
            let reads = Cell::new(0);
            let read = |offset: u64, out: &mut [u8]| {
                reads.set(reads.get() + 1);
                Ok(size.saturating_sub(offset).min(out.len() as u64) as usize)
            };
            assert_eq!(told(&read), Ok(size));
            assert!(reads.get() < 130 && (size >= 1 << 16 || reads.get() == 1), "{size}: {}", reads.get());
        }
    }

    #[test]
    fn a_refusal_is_handed_on() {
        assert_eq!(told(&|_, _| Err(3)), Err(3));
        assert_eq!(told(&|offset, out| if offset > 1 << 20 { Err(2) } else { Ok(out.len()) }), Err(2));
    }
}
