//! What is said of an object by its bytes alone.

// A slice passes as its pointer and its length.
extern "C" {
    fn apfs_wrong_words(object: *const u8, object_len: usize, out: *mut u8, out_len: usize) -> i64;
}

/// Every word from byte 8 on whose replacement alone makes an object that fails its checksum valid, lowest place first
/// and lower word first: 8 bytes for the place, then 4 for the replacing word. The answer is how many there are.
pub fn wrong_words(object: &[u8], out: &mut [u8]) -> i64 {
    // Live slices for the call's time; the port writes to `out` alone.
    unsafe { apfs_wrong_words(object.as_ptr(), object.len(), out.as_mut_ptr(), out.len()) }
}
