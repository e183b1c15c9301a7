//! Bookmarks of records, request 10: on sticks drawn from a seed, whole and damaged, every record that the Rust's scan
//! gives is asked for by its mark and found again by it. The Rust has no marks: where a record stands is worked out by a
//! walk of the host's own ([`walk`]), and what becomes of a mark that is handed in by an account of the request's
//! sentences ([`handed`]).

pub mod draw;
pub mod edges;
pub mod handed;
pub mod records;
pub mod run;
pub mod tally;
pub mod trial;
pub mod walk;

use std::ops::Range;

/// Bytes of a mark.
pub const LENGTH: usize = 24;
/// Both fields of a missing value.
pub const NONE: Part = Part { offset: u32::MAX, length: u32::MAX };

/// Where bytes stand in their block.
#[derive(Clone, Copy, Debug, PartialEq, Eq)]
pub struct Part {
    pub offset: u32,
    pub length: u32,
}

impl Part {
    pub fn new(offset: u32, length: u32) -> Part {
        Part { offset, length }
    }

    /// Of a block, none of which has 2^32 bytes.
    pub fn of(span: Range<usize>) -> Part {
        Part::new(span.start as u32, span.len() as u32)
    }
}

/// "a block number of 64 bits, then the key's offset inside the block and its length, then the value's, 32 bits each"
#[derive(Clone, Copy, Debug, PartialEq, Eq)]
pub struct Mark {
    pub block: u64,
    pub key: Part,
    pub value: Part,
}

impl Mark {
    pub fn bytes(&self) -> Vec<u8> {
        let parts = [self.key.offset, self.key.length, self.value.offset, self.value.length];
        [&self.block.to_le_bytes()[..], &parts.map(u32::to_le_bytes).concat()].concat()
    }
}
