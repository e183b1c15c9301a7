//! Node counts of desks, request 06: on sticks drawn from a seed, whole and damaged, at earlier checkpoints and in
//! partition tables, desks of one dock make every call. Which nodes a call goes through is worked out by a walk of the
//! host's own ([`account`]), which is held against the Rust's count of blocks ([`by_oracle`]).

pub mod account;
pub mod by_oracle;
pub mod course;
pub mod draw;
pub mod edges;
pub mod opening;
pub mod order;
#[cfg(feature = "calls")]
pub mod port;
pub mod readings;
pub mod request;
pub mod run;
pub mod tally;
pub mod trial;
pub mod variants;

use request::Request;

/// Those of a dock.
pub type Counts = [u64; 8];

/// `apfs_desk` or a stand-in: a desk's call on an image, or on an object.
pub type Desk<'p> = &'p dyn Fn(&mut Counts, u64, &Request, &[u8], &mut [u8]) -> i64;
/// The export that the call is by itself.
pub type Plain<'p> = &'p dyn Fn(&Request, &[u8], &mut [u8]) -> i64;

#[derive(Clone, Copy)]
pub struct Ports<'p> {
    pub desk: Desk<'p>,
    pub plain: Plain<'p>,
}

/// "that desk's count goes up .. by the nodes its call went through", "At 2^64 − 1 a count stays", "A desk number above 7
/// changes no count".
pub fn add(counts: &mut Counts, desk: u64, nodes: u64) {
    let count = usize::try_from(desk).ok().and_then(|desk| counts.get_mut(desk));
    count.into_iter().for_each(|count| *count = count.saturating_add(nodes));
}
