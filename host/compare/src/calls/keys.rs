//! Directory keys as the Apple File System Reference has them, for directories that the Rust reads otherwise: it tells
//! a key's form by its length, and wants 12 bytes of any.

use sticks::block::{get16, get32, get64};

/// `apfs_incompatible_features` of a volume's superblock.
const FEATURES: usize = 56;
/// `APFS_INCOMPAT_CASE_INSENSITIVE` and `APFS_INCOMPAT_NORMALIZATION_INSENSITIVE`.
const INSENSITIVE: u64 = 0x1 | 0x8;
/// `j_key_t`, with which every key begins.
const HEAD: usize = 8;
/// `J_DREC_LEN_MASK`, of `name_len_and_hash`.
const LENGTH: u32 = 0x3ff;
/// The Rust reads 4 bytes behind the head of any key.
const SHORTEST: usize = 12;

/// Whether the keys of a volume that has this superblock are `j_drec_hashed_key_t`; else they are `j_drec_key_t`.
pub fn are_hashed(superblock: &[u8]) -> bool {
    get64(superblock, FEATURES) & INSENSITIVE != 0
}

/// The name's field, zero byte and all, of a key that has the form; its count must be the field's length.
pub fn name(key: &[u8], hashed: bool) -> Option<&[u8]> {
    let start = HEAD + if hashed { 4 } else { 2 };
    let field = key.get(start..)?;
    let count = if hashed { (get32(key, HEAD) & LENGTH) as usize } else { usize::from(get16(key, HEAD)) };
    (field.len() == count).then_some(field)
}

/// The same as the Rust has it, whatever the volume.
pub fn by_length(key: &[u8]) -> Option<&[u8]> {
    name(key, true).or_else(|| name(key, false)).filter(|_| key.len() >= SHORTEST)
}

/// Whether the Rust reads the key alike.
pub fn is_common(key: &[u8], hashed: bool) -> bool {
    key.len() >= SHORTEST && name(key, hashed).is_some()
}
