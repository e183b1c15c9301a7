//! The port as safe functions, and its comparison with the published Rust: leaves ([`leaf`]), the
//! opening of containers ([`opening`]) and of volumes ([`volumes`]), the calls on volumes ([`calls`]) and their
//! listings ([`list`]), all of these on images with a partition table ([`parts`]) and at earlier checkpoints
//! ([`checkpoints`]), and of two sticks at a time ([`pairs`]). The Rust reads no table: it is given the part of an
//! [`image`] that the table leads to. Its object maps are held against a walk over all their entries ([`maps`]),
//! and the port's list of wrong words against its test of checksums ([`words`]); bookmarks lead to the records that its
//! scan gives ([`marks`]). Node counts of desks are held against a walk of the host's own ([`desks`]).
//!
//! The comparison needs the oracle; without the published sources only [`port`], [`leaf`] and the
//! file format of [`record`] are built.

#[cfg(oracle)]
pub mod bench;
#[cfg(oracle)]
pub mod calls;
#[cfg(oracle)]
pub mod cases;
#[cfg(oracle)]
pub mod checkpoints;
#[cfg(oracle)]
pub mod comparison;
#[cfg(oracle)]
pub mod desks;
#[cfg(oracle)]
pub mod expected;
pub mod image;
pub mod leaf;
#[cfg(oracle)]
pub mod list;
#[cfg(oracle)]
pub mod maps;
#[cfg(oracle)]
pub mod marks;
#[cfg(oracle)]
pub mod opening;
#[cfg(oracle)]
pub mod pairs;
#[cfg(oracle)]
pub mod parts;
pub mod port;
pub mod random;
#[cfg(oracle)]
pub mod reach;
pub mod record;
#[cfg(oracle)]
pub mod recorded;
#[cfg(oracle)]
pub mod sample;
#[cfg(oracle)]
pub mod trees;
#[cfg(oracle)]
pub mod volumes;
#[cfg(oracle)]
pub mod walk;
#[cfg(oracle)]
pub mod words;
