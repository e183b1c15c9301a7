//! Calls on volumes: lookups, reads and lists on sticks drawn from a seed, whole and damaged, by the
//! oracle and the port.

pub mod call;
pub mod check;
pub mod directory;
pub mod draw;
pub mod expected;
pub mod keys;
pub mod line;
pub mod lists;
pub mod met;
pub mod names;
pub mod replaced;
pub mod run;
mod stored;
pub mod stream;
pub mod tally;
pub mod vast;

use call::Call;

/// The port or a stand-in, on an image and the volume of that index: how many bytes were written, or
/// minus the refusal's number.
pub type Port<'p> = &'p dyn Fn(&[u8], u64, &Call, &mut [u8]) -> i64;

/// The port itself.
#[cfg(feature = "calls")]
pub fn port(image: &[u8], volume: u64, call: &Call, out: &mut [u8]) -> i64 {
    port_of(image, crate::port::calls::Which::latest(volume), call, out)
}

/// At any checkpoint.
#[cfg(feature = "calls")]
pub fn port_of(image: &[u8], which: crate::port::calls::Which, call: &Call, out: &mut [u8]) -> i64 {
    use crate::port::{calls, marks};
    match call {
        Call::Lookup { path } => calls::lookup(image, which, path, out),
        Call::Read { id, offset, .. } => calls::read(image, which, *id, *offset, out),
        Call::Entry { id, place } => calls::entry(image, which, *id, *place, out),
        Call::Entries { id, place, .. } => calls::entries(image, which, *id, *place, out),
        Call::Xattr { id, place } => calls::xattr(image, which, *id, *place, out),
        Call::XattrBytes { id, place } => calls::xattr_bytes(image, which, *id, *place, out),
        Call::Link { id } => calls::link(image, which, *id, out),
        Call::Extent { id, place } => calls::extent(image, which, *id, *place, out),
        Call::Replaced { kind, id, place } => calls::replaced(image, which, *kind, *id, *place, out),
        Call::Mark { id, kind, place } => marks::mark(image, which, *id, *kind, *place, out),
        Call::Marked { mark } => marks::marked(image, which.checkpoint, mark, out),
    }
}
