//! The published Rust of winapfs as an oracle: its files are compiled unchanged from their place,
//! the folder that WINAPFS_SRC names, or `../shared/docs/src` beside the repository.
//!
//! Without that folder the crate is empty, and [`AVAILABLE`] is false.

/// Whether the published sources were there when this was built.
pub const AVAILABLE: bool = cfg!(winapfs);

#[cfg(winapfs)]
include!(concat!(env!("OUT_DIR"), "/root.rs"));

#[cfg(winapfs)]
#[allow(dead_code)]
mod decmpfs;
#[cfg(winapfs)]
pub mod probe;
#[cfg(winapfs)]
pub mod spaceman;
