//! The functions that the port's archives export, made safe.

#[cfg(feature = "calls")]
pub use exports::{calls, desks, marks};
#[cfg(feature = "apfs")]
pub use exports::{checkpoints, open, open_at, part, wrong_words};

// A slice passes as its pointer and its length.
extern "C" {
    fn leaf_number(b: *const u8, b_len: usize, off: usize, width: usize) -> u64;
    fn leaf_number_refused(b: *const u8, b_len: usize, off: usize, width: usize) -> u64;
    fn leaf_slice_refused(b: *const u8, b_len: usize, off: usize, len: usize) -> u64;
    fn leaf_cstr(b: *const u8, b_len: usize) -> usize;
    fn leaf_piece(b: *const u8, b_len: usize) -> u64;
    fn leaf_reads_as(name: *const u8, name_len: usize, text: *const u8, text_len: usize) -> u64;
    fn leaf_is_utf8(b: *const u8, b_len: usize) -> u64;
    fn leaf_replaced(b: *const u8, b_len: usize) -> u64;
    fn leaf_compute(object: *const u8, object_len: usize) -> u64;
    fn leaf_verify(object: *const u8, object_len: usize) -> u64;
    fn leaf_hash(name: *const u8, name_len: usize, insensitive: u64) -> u64;
    fn leaf_len_and_hash(name: *const u8, name_len: usize, insensitive: u64) -> u64;
    fn leaf_header(b: *const u8, b_len: usize, field: u64) -> u64;
    fn leaf_header_refused(b: *const u8, b_len: usize) -> u64;
    fn leaf_read_at(image: *const u8, image_len: usize, off: u64, len: usize) -> u64;
}

// Each call below lends live slices for the call's time.

/// The value of a field of `width` bytes (2, 4 or 8); 0 where refused, or of another width.
pub fn number(b: &[u8], off: usize, width: usize) -> u64 {
    unsafe { leaf_number(b.as_ptr(), b.len(), off, width) }
}

/// 0, or the refusal's number.
pub fn number_refused(b: &[u8], off: usize, width: usize) -> u64 {
    unsafe { leaf_number_refused(b.as_ptr(), b.len(), off, width) }
}

/// 0, or the refusal's number.
pub fn slice_refused(b: &[u8], off: usize, len: usize) -> u64 {
    unsafe { leaf_slice_refused(b.as_ptr(), b.len(), off, len) }
}

/// How many bytes stand before the first zero byte or the end.
pub fn cstr(b: &[u8]) -> usize {
    unsafe { leaf_cstr(b.as_ptr(), b.len()) }
}

/// 0 at the end; n for a well-formed sequence of n bytes; 256 + n for an ill-formed part of n.
pub fn piece(b: &[u8]) -> u64 {
    unsafe { leaf_piece(b.as_ptr(), b.len()) }
}

/// 1 where the lossy reading of `name` is `text`, else 0.
pub fn reads_as(name: &[u8], text: &[u8]) -> u64 {
    unsafe { leaf_reads_as(name.as_ptr(), name.len(), text.as_ptr(), text.len()) }
}

pub fn is_utf8(b: &[u8]) -> u64 {
    unsafe { leaf_is_utf8(b.as_ptr(), b.len()) }
}

/// How many parts the lossy reading replaces.
pub fn replaced(b: &[u8]) -> u64 {
    unsafe { leaf_replaced(b.as_ptr(), b.len()) }
}

pub fn compute(object: &[u8]) -> u64 {
    unsafe { leaf_compute(object.as_ptr(), object.len()) }
}

pub fn verify(object: &[u8]) -> u64 {
    unsafe { leaf_verify(object.as_ptr(), object.len()) }
}

/// The name's hash; 2^32 + 9 where the name is refused. `insensitive` is 0 for no.
pub fn hash(name: &[u8], insensitive: u64) -> u64 {
    unsafe { leaf_hash(name.as_ptr(), name.len(), insensitive) }
}

/// The name's length and hash; refused as [`hash`] is.
pub fn len_and_hash(name: &[u8], insensitive: u64) -> u64 {
    unsafe { leaf_len_and_hash(name.as_ptr(), name.len(), insensitive) }
}

/// Fields 0 to 5: checksum, oid, xid, type, subtype, kind; 0 where the header is refused.
pub fn header(b: &[u8], field: u64) -> u64 {
    unsafe { leaf_header(b.as_ptr(), b.len(), field) }
}

/// 0, or the refusal's number.
pub fn header_refused(b: &[u8]) -> u64 {
    unsafe { leaf_header_refused(b.as_ptr(), b.len()) }
}

/// 0 where the image has the `len` bytes at `off`, else the refusal's number.
pub fn read_at(image: &[u8], off: u64, len: usize) -> u64 {
    unsafe { leaf_read_at(image.as_ptr(), image.len(), off, len) }
}
