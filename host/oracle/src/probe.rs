//! Public doors to what the published crate keeps to itself.

use std::sync::Arc;

use crate::btree::{self, Node};
use crate::bytes;
use crate::error::{Error, Result};
use crate::fs::{Extent, Inode, Volume, OBJ_ID_MASK};
use crate::nx::{ApfsSuperblock, Container};
use crate::omap::{Omap, OmapVal};

/// The number that document 01 gives an error's class. The other classes belong to writing.
pub fn class(e: &Error) -> u64 {
    match e {
        Error::Io(_) => 1,
        Error::Corrupt(_) => 2,
        Error::Unsupported(_) => 3,
        Error::NotFound(_) => 4,
        other => unreachable!("a writing class in a read: {other}"),
    }
}

pub fn slice_at(b: &[u8], off: usize, len: usize) -> Result<&[u8]> {
    bytes::slice_at(b, off, len)
}

pub fn u16_at(b: &[u8], off: usize) -> Result<u16> {
    bytes::u16_at(b, off)
}

pub fn u32_at(b: &[u8], off: usize) -> Result<u32> {
    bytes::u32_at(b, off)
}

pub fn u64_at(b: &[u8], off: usize) -> Result<u64> {
    bytes::u64_at(b, off)
}

pub fn uuid_at(b: &[u8], off: usize) -> Result<[u8; 16]> {
    bytes::uuid_at(b, off)
}

pub fn cstr(b: &[u8]) -> String {
    bytes::cstr(b)
}

pub fn inode(id: u64, value: &[u8]) -> Result<Inode> {
    Inode::parse(id, value)
}

pub fn extents(volume: &Volume, stream: u64) -> Result<Vec<Extent>> {
    volume.extents(stream)
}

/// Of a key and its value, whether to go on.
pub type Each<'f> = &'f mut dyn FnMut(&[u8], &[u8]) -> Result<bool>;

/// The records of an id and a kind, in the tree's order.
pub fn records(volume: &Volume, id: u64, kind: u8, f: Each) -> Result<()> {
    let window = |key: &[u8]| {
        let head = bytes::u64_at(key, 0)?;
        Ok((head & OBJ_ID_MASK, (head >> 60) as u8).cmp(&(id, kind)))
    };
    let block = |oid: u64| volume.fs_node(oid).map(|(_, block)| block);
    let root = volume.fs_root();
    btree::scan(&volume.container().r, root, &root.info()?, &block, &window, f)
}

/// A node of the volume's tree by its object id.
pub fn tree_node(volume: &Volume, oid: u64) -> Result<Arc<Node>> {
    volume.fs_node(oid).map(|(node, _)| node)
}

/// The block that such a node stands in.
pub fn tree_block(volume: &Volume, oid: u64) -> Result<u64> {
    volume.fs_node(oid).map(|(_, block)| block)
}

pub fn block_count(container: &Container) -> u64 {
    container.r.block_count
}

/// The block of a volume's object map, by the volume's object id.
pub fn volume_map(container: &Container, oid: u64) -> Result<u64> {
    let superblock = container.r.read_object(container.omap_lookup(oid)?)?;
    ApfsSuperblock::parse(&superblock).map(|volume| volume.omap_oid)
}

/// The object map in a block.
pub fn map(container: &Container, block: u64) -> Result<Omap> {
    Omap::load(&container.r, &container.r.read_object(block)?)
}

/// The mapping of an object at a transaction.
pub fn map_lookup(container: &Container, map: &Omap, (oid, xid): (u64, u64)) -> Result<Option<OmapVal>> {
    map.lookup(&container.r, oid, xid)
}

/// A key, and the value if there is one.
pub type Entry = (Vec<u8>, Option<Vec<u8>>);

/// The entry that [`map_lookup`] goes by.
pub fn lookup_le(container: &Container, map: &Omap, target: (u64, u64)) -> Result<Option<Entry>> {
    let order = |key: &[u8]| Ok((bytes::u64_at(key, 0)?, bytes::u64_at(key, 8)?).cmp(&target));
    let root = map.tree_root();
    btree::lookup_le(&container.r, root, &root.info()?, &|block| Ok(block), &order)
}
