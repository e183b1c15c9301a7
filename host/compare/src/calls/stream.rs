//! The contents of an attribute. The oracle allocates a stream's whole size first, so it is asked
//! about short ones alone; of a long one document 01 tells.

use oracle::fs::{Extent, Volume, Xattr, XattrData};
use oracle::nx::Container;
use oracle::probe;

use crate::calls::expected::Stop;

/// The longest stream that the oracle is asked for.
pub const LONGEST: u64 = 1 << 22;
/// So much of a longer one is read.
const PREFIX: u64 = 1 << 16;

const IO: u64 = 1;
const CORRUPT: u64 = 2;
const OVERFLOW: u64 = 8;

pub enum Data {
    Whole(Vec<u8>),
    /// The first bytes of a stream longer than any buffer here.
    Long(Vec<u8>),
}

pub fn data(image: &[u8], c: &Container, v: &Volume, x: &Xattr) -> Result<Data, Stop> {
    match x.data {
        XattrData::Stream { obj_id, size } if size > LONGEST => {
            let extents = probe::extents(v, obj_id)?;
            let count = probe::block_count(c);
            by_document(image, c.block_size().into(), count, &extents, size).map(Data::Long).map_err(Stop::Added)
        }
        _ => Ok(Data::Whole(v.read_xattr(x)?)),
    }
}

/// How many bytes the attribute has.
pub fn size(x: &Xattr) -> u64 {
    match &x.data {
        XattrData::Embedded(bytes) => bytes.len() as u64,
        XattrData::Stream { size, .. } => *size,
    }
}

/// The first bytes of a stream of `size` bytes, or the refusal's number.
pub fn by_document(image: &[u8], bs: u64, count: u64, extents: &[Extent], size: u64) -> Result<Vec<u8>, u64> {
    let mut out = vec![0; size.min(PREFIX) as usize];
    let mut pos = 0;
    for e in extents {
        if pos >= size {
            break;
        }
        if e.logical < pos {
            return Err(CORRUPT);
        }
        pos = e.logical.min(size);
        let want = e.len.min(size - pos);
        if e.phys_block != 0 {
            let end = e.phys_block.checked_add(e.len.div_ceil(bs)).ok_or(OVERFLOW)?;
            let stored = if end > count { Err(CORRUPT) } else { blocks(image, bs, e.phys_block, want) }?;
            let start = pos.min(PREFIX).min(size) as usize;
            let n = stored.len().min(out.len() - start);
            out[start..start + n].copy_from_slice(&stored[..n]);
        }
        pos += want;
    }
    Ok(out)
}

/// `want` bytes from a block on, whose whole blocks must lie in the image.
pub fn blocks(image: &[u8], bs: u64, block: u64, want: u64) -> Result<&[u8], u64> {
    if want == 0 {
        return Ok(&[]);
    }
    let start = block.checked_mul(bs).ok_or(OVERFLOW)?;
    let end = want.checked_next_multiple_of(bs).and_then(|n| start.checked_add(n));
    if end.is_none_or(|end| end > image.len() as u64) {
        return Err(IO);
    }
    Ok(&image[start as usize..(start + want) as usize])
}
