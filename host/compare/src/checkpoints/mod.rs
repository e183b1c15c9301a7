//! Earlier checkpoints: the list of their numbers, and every call at one of them, on sticks that were saved several times,
//! whole and damaged. The Rust knows the latest checkpoint alone: it is given the image in which every candidate of
//! another number is spoiled.

pub mod run;
pub mod spoiled;
pub mod tally;

use crate::calls::call::Call;
use crate::opening::Open;

/// On an image and a transaction number.
pub type OpenAt<'p> = &'p dyn Fn(&[u8], u64, &mut [u8]) -> i64;
/// On an image, a transaction number and the volume of an index.
pub type CallAt<'p> = &'p dyn Fn(&[u8], u64, u64, &Call, &mut [u8]) -> i64;
pub type ListAt<'p> = &'p dyn Fn(&[u8], u64, u64, &mut [u8]) -> i64;

/// The port or a stand-in.
#[derive(Clone, Copy)]
pub struct Ports<'p> {
    /// `apfs_checkpoints`, which answers how many numbers there are.
    pub numbers: Open<'p>,
    pub open: OpenAt<'p>,
    pub call: CallAt<'p>,
    pub list: ListAt<'p>,
    pub measure: ListAt<'p>,
}
