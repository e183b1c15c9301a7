//! A file's whole contents. The oracle is asked about short ones alone; of a long one document 01
//! tells whether it is refused.

use oracle::fs::{Extent, Inode, Volume};
use oracle::nx::Container;
use oracle::probe;

use crate::calls::expected::Stop;
use crate::calls::stream::{blocks, LONGEST};

const CORRUPT: u64 = 2;
const OVERFLOW: u64 = 8;

/// None where the file is longer than any buffer, and read without fault.
pub fn contents(image: &[u8], c: &Container, v: &Volume, inode: &Inode) -> Result<Option<Vec<u8>>, Stop> {
    let extents = v.file_extents(inode)?;
    in_order(&extents).map_err(Stop::Added)?;
    let size = inode.dstream.map_or(0, |d| d.size);
    if size > LONGEST {
        let told = by_document(image, c.block_size().into(), probe::block_count(c), &extents, size);
        return told.map(|()| None).map_err(Stop::Added);
    }
    let mut bytes = vec![0; size as usize];
    let n = v.read_at(inode, 0, &mut bytes)?;
    bytes.truncate(n);
    Ok(Some(bytes))
}

/// None may start before its predecessor's end.
fn in_order(extents: &[Extent]) -> Result<(), u64> {
    extents.windows(2).all(apart).then_some(()).ok_or(CORRUPT)
}

/// Whether a file of `size` bytes in these extents is read without fault.
pub fn whole(image: &[u8], bs: u64, count: u64, extents: &[Extent], size: u64) -> Result<(), u64> {
    in_order(extents)?;
    by_document(image, bs, count, extents, size)
}

/// Whether the second of two extents starts neither before the first nor before the first's end.
fn apart(w: &[Extent]) -> bool {
    let end = u128::from(w[0].logical) + u128::from(w[0].len);
    u128::from(w[1].logical) >= end
}

/// Whether `size` bytes of these extents, which are in order and apart, are read without fault.
pub fn by_document(image: &[u8], bs: u64, count: u64, extents: &[Extent], size: u64) -> Result<(), u64> {
    let first = extents.partition_point(|e| e.logical == 0).saturating_sub(1);
    for e in extents[first..].iter().take_while(|e| e.logical < size) {
        let stop = e.logical.checked_add(e.len).ok_or(OVERFLOW)?.min(size);
        if e.logical >= stop || e.phys_block == 0 {
            continue;
        }
        let end = e.phys_block.checked_add(e.len.div_ceil(bs)).ok_or(OVERFLOW)?;
        if end > count {
            return Err(CORRUPT);
        }
        blocks(image, bs, e.phys_block, stop - e.logical)?;
    }
    Ok(())
}
