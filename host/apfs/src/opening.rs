//! The part of an image that everything reads, opening the container in it, and its checkpoints.

// A slice passes as its pointer and its length.
extern "C" {
    fn apfs_part(image: *const u8, image_len: usize, out: *mut u8, out_len: usize) -> i64;
    fn apfs_open(image: *const u8, image_len: usize, out: *mut u8, out_len: usize) -> i64;
    fn apfs_open_at(image: *const u8, image_len: usize, xid: u64, out: *mut u8, out_len: usize) -> i64;
    fn apfs_checkpoints(image: *const u8, image_len: usize, out: *mut u8, out_len: usize) -> i64;
}

// Each call below lends live slices for the call's time; the port writes to `out` alone.

/// The part's line, `(part OFFSET LENGTH)` and LF. Every call finds the part anew; one that has NXSB and 4,096 bytes is
/// its own part, so it may be passed in the image's place.
pub fn part(image: &[u8], out: &mut [u8]) -> i64 {
    unsafe { apfs_part(image.as_ptr(), image.len(), out.as_mut_ptr(), out.len()) }
}

/// The container's line, `(container BLOCK_SIZE BLOCK_COUNT XID OID ..)` and LF.
pub fn open(image: &[u8], out: &mut [u8]) -> i64 {
    unsafe { apfs_open(image.as_ptr(), image.len(), out.as_mut_ptr(), out.len()) }
}

/// The same at the checkpoint of a transaction number.
pub fn open_at(image: &[u8], xid: u64, out: &mut [u8]) -> i64 {
    unsafe { apfs_open_at(image.as_ptr(), image.len(), xid, out.as_mut_ptr(), out.len()) }
}

/// The transaction numbers of the accepted checkpoints, 8 bytes each, greatest first; the answer is how many.
pub fn checkpoints(image: &[u8], out: &mut [u8]) -> i64 {
    unsafe { apfs_checkpoints(image.as_ptr(), image.len(), out.as_mut_ptr(), out.len()) }
}
