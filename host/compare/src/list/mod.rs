//! Listings of volumes on sticks drawn from a seed, whole and damaged, and their measures: by the port, and rebuilt
//! from the oracle's own calls.

pub mod buffers;
pub mod check;
pub mod edges;
pub mod file;
pub mod long;
pub mod measure;
pub mod run;
pub mod tally;
pub mod totals;
pub mod trace;
pub mod walk;

/// The port or a stand-in, on an image and the volume of that index: how many bytes were written, or
/// minus the refusal's number.
pub type Port<'p> = &'p dyn Fn(&[u8], u64, &mut [u8]) -> i64;

#[derive(Clone, Copy)]
pub struct Ports<'p> {
    pub list: Port<'p>,
    pub measure: Port<'p>,
}
