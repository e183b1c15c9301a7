//! Opening containers: sticks drawn from a seed, whole and damaged, by the oracle and the port.

pub mod answer;
pub mod check;
pub mod outside;
pub mod run;
pub mod shrink;
pub mod tally;

/// `apfs_open` or a stand-in: how many bytes were written, or minus the refusal's number.
pub type Open<'p> = &'p dyn Fn(&[u8], &mut [u8]) -> i64;
