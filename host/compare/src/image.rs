//! An image, and the part of it that everything reads.

use std::sync::Arc;

use sticks::gpt::expected_part;

/// An image of under 4,096 bytes the Rust refuses with the same number: it is asked.
const TOO_SHORT: u8 = 1;

#[derive(Clone, Debug)]
pub struct Image {
    /// What the port is given.
    pub whole: Arc<Vec<u8>>,
    /// What the oracle is given, or the refusal's number.
    pub part: Result<Arc<Vec<u8>>, u64>,
}

impl Image {
    /// The part is the one that document 02 tells.
    pub fn of(whole: impl Into<Arc<Vec<u8>>>) -> Image {
        let whole = whole.into();
        let part = expected_part(&whole);
        Image::with(whole, part)
    }

    /// The part is known: its offset and length, or the refusal's number.
    pub fn with(whole: Arc<Vec<u8>>, part: Result<(usize, usize), u8>) -> Image {
        let part = match part {
            Err(TOO_SHORT) => Ok(Arc::clone(&whole)),
            Err(number) => Err(number.into()),
            Ok((0, length)) if length == whole.len() => Ok(Arc::clone(&whole)),
            Ok((offset, length)) => Ok(Arc::new(whole[offset..offset + length].to_vec())),
        };
        Image { whole, part }
    }
}
