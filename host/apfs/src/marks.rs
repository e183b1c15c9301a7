//! Bookmarks of records: 24 bytes, little-endian. A block number of 64 bits, then the key's offset inside the block and
//! its length, then the value's, 32 bits each; a missing value is 0xffffffff in both its fields.

use crate::calls::Which;

/// Bytes of a bookmark.
pub const LENGTH: usize = 24;

// A slice passes as its pointer and its length.
extern "C" {
    fn apfs_mark(
        image: *const u8,
        image_len: usize,
        volume: u64,
        id: u64,
        kind: u8,
        place: u64,
        out: *mut u8,
        out_len: usize,
    ) -> i64;
    fn apfs_mark_at(
        image: *const u8,
        image_len: usize,
        xid: u64,
        volume: u64,
        id: u64,
        kind: u8,
        place: u64,
        out: *mut u8,
        out_len: usize,
    ) -> i64;
    fn apfs_marked(
        image: *const u8,
        image_len: usize,
        mark: *const u8,
        mark_len: usize,
        out: *mut u8,
        out_len: usize,
    ) -> i64;
    fn apfs_marked_at(
        image: *const u8,
        image_len: usize,
        xid: u64,
        mark: *const u8,
        mark_len: usize,
        out: *mut u8,
        out_len: usize,
    ) -> i64;
}

// Each call below lends live slices for the call's time; the port writes to `out` alone.

/// The bookmark of the record that stands after `place` others of an id and a kind; nothing past the last.
pub fn mark(image: &[u8], which: Which, id: u64, kind: u8, place: u64, out: &mut [u8]) -> i64 {
    let (b, b_len, v, o, o_len) = (image.as_ptr(), image.len(), which.volume, out.as_mut_ptr(), out.len());
    match which.checkpoint {
        None => unsafe { apfs_mark(b, b_len, v, id, kind, place, o, o_len) },
        Some(xid) => unsafe { apfs_mark_at(b, b_len, xid, v, id, kind, place, o, o_len) },
    }
}

/// The line `(record KEY VALUE)` of the bytes that a bookmark leads to, with `-` for a missing value. A bookmark whose
/// parts pass its block, or whose block passes the image, is refused with 1, and so is one of another length.
pub fn marked(image: &[u8], checkpoint: Option<u64>, mark: &[u8], out: &mut [u8]) -> i64 {
    let (b, b_len, o, o_len) = (image.as_ptr(), image.len(), out.as_mut_ptr(), out.len());
    match checkpoint {
        None => unsafe { apfs_marked(b, b_len, mark.as_ptr(), mark.len(), o, o_len) },
        Some(xid) => unsafe { apfs_marked_at(b, b_len, xid, mark.as_ptr(), mark.len(), o, o_len) },
    }
}
