//! One wrong word, request 13: on objects drawn from a seed the port's list is held against a second account, whose every
//! entry the Rust's own test of a checksum must take.

pub mod account;
pub mod draw;
pub mod run;
pub mod tally;

/// A place, counted in bytes from the object's start, and the word that would stand there.
pub type Mend = (u64, u32);

/// The bytes of a list.
pub fn bytes(list: &[Mend]) -> Vec<u8> {
    list.iter().flat_map(|(place, word)| [&place.to_le_bytes()[..], &word.to_le_bytes()].concat()).collect()
}
