//! Images with a partition table, drawn from a seed, intact and spoiled: the part that the port tells must be the one
//! that the drawer knows, and every call on the image must answer as the oracle does given that part.

pub mod run;
pub mod tally;

use crate::opening::Open;
use crate::{calls, list};

/// The port or a stand-in.
#[derive(Clone, Copy)]
pub struct Ports<'p> {
    /// `apfs_part`.
    pub part: Open<'p>,
    pub open: Open<'p>,
    pub call: calls::Port<'p>,
    pub list: list::Ports<'p>,
}
