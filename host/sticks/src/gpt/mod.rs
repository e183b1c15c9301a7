//! GUID partition tables (UEFI 2.10, 5.3, with sectors of 512 bytes): drawn around a container, whole and spoiled, and
//! read once more to tell which part of an image everything reads.
//!
//! What [`draw`] knows of an image and what [`expected_part`] reads from it are two accounts: they must agree.

mod draw;
mod entries;
mod expected;
mod fault;
mod header;
mod layout;
mod usual;

pub use draw::{draw, kinds, Drawn, Kind};
pub use expected::expected_part;
pub use header::mend;
pub use usual::around;

const TOO_SHORT: u8 = 1;
const NO_PARTITION_TABLE: u8 = 11;
const NO_PARTITION: u8 = 12;

/// A part's offset and length, or the refusal's number.
pub type Answer = Result<(usize, usize), u8>;
