//! Little-endian fields of a block, the object header and the checksum.

use crate::sums::checksum;

pub const NX_SUPERBLOCK: u32 = 0x01;
pub const BTREE: u32 = 0x02;
pub const BTREE_NODE: u32 = 0x03;
pub const OMAP: u32 = 0x0b;
pub const CHECKPOINT_MAP: u32 = 0x0c;
pub const FS: u32 = 0x0d;
pub const FSTREE: u32 = 0x0e;

pub const EPHEMERAL: u32 = 0x8000_0000;
pub const PHYSICAL: u32 = 0x4000_0000;

pub fn put(b: &mut [u8], at: usize, bytes: &[u8]) {
    b[at..at + bytes.len()].copy_from_slice(bytes);
}

pub fn put16(b: &mut [u8], at: usize, n: u16) {
    put(b, at, &n.to_le_bytes());
}

pub fn put32(b: &mut [u8], at: usize, n: u32) {
    put(b, at, &n.to_le_bytes());
}

pub fn put64(b: &mut [u8], at: usize, n: u64) {
    put(b, at, &n.to_le_bytes());
}

pub fn get16(b: &[u8], at: usize) -> u16 {
    u16::from_le_bytes([b[at], b[at + 1]])
}

pub fn get32(b: &[u8], at: usize) -> u32 {
    u32::from(get16(b, at)) | u32::from(get16(b, at + 2)) << 16
}

pub fn get64(b: &[u8], at: usize) -> u64 {
    u64::from(get32(b, at)) | u64::from(get32(b, at + 4)) << 32
}

pub fn header(b: &mut [u8], oid: u64, xid: u64, kind: u32, subtype: u32) {
    put64(b, 8, oid);
    put64(b, 16, xid);
    put32(b, 24, kind);
    put32(b, 28, subtype);
}

/// Writes the checksum that the block's other bytes ask for.
pub fn seal(b: &mut [u8]) {
    let sum = checksum(b);
    put64(b, 0, sum);
}

pub fn is_sealed(b: &[u8]) -> bool {
    get64(b, 0) == checksum(b)
}
