//! The bytes of names as they stand in an image, of which the Rust hands out the texts alone. What it refuses has been
//! refused before these are asked for. Those of entries stand in [`crate::calls::keys`].

use oracle::error::Result;
use oracle::fs::{Volume, APFS_TYPE_INODE, APFS_TYPE_XATTR};
use oracle::probe;
use sticks::block::get16;
use sticks::contents::NAME_FIELD;

const LABEL: std::ops::Range<usize> = 704..960;
/// Where the extended fields of an inode's value begin.
const FIELDS: usize = 92;

pub fn label(v: &Volume) -> Vec<u8> {
    v.sb.raw[LABEL].to_vec()
}

/// Of the first record, the last name among the fields.
pub fn inode(v: &Volume, id: u64) -> Result<Option<Vec<u8>>> {
    let mut out = None;
    probe::records(v, id, APFS_TYPE_INODE, &mut |_, value| {
        out = last_name(value.get(FIELDS..).unwrap_or_default());
        Ok(false)
    })?;
    Ok(out)
}

fn last_name(b: &[u8]) -> Option<Vec<u8>> {
    let count = if b.len() < 4 { 0 } else { usize::from(get16(b, 0)) };
    let (mut at, mut last) = (4 + 4 * count, None);
    for head in (0..count).map(|i| 4 + 4 * i) {
        let size = usize::from(get16(b, head + 2));
        if b[head] == NAME_FIELD {
            last = Some(b[at..at + size].to_vec());
        }
        at += size.next_multiple_of(8);
    }
    last
}

pub fn attributes(v: &Volume, id: u64) -> Result<Vec<Vec<u8>>> {
    let mut out = Vec::new();
    probe::records(v, id, APFS_TYPE_XATTR, &mut |key, _| {
        out.push(key[10..10 + usize::from(get16(key, 8))].to_vec());
        Ok(true)
    })?;
    Ok(out)
}
