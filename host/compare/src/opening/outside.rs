//! Images that the oracle can't be asked about.

use sticks::block::{get32, get64, CHECKPOINT_MAP};

/// Most bytes of a ring that the oracle is asked to read.
const LARGEST_RING: u64 = 1 << 28;
/// Most bytes of map blocks that the oracle is asked to go through, one by one.
const LONGEST_MAPS: u64 = 1 << 26;

#[derive(Clone, Copy, Debug, PartialEq, Eq)]
pub enum Outside {
    /// The oracle would first allocate the whole ring.
    Ring,
    /// The oracle would go round the same maps up to 2^32 times, and keep their entries.
    Maps,
}

/// Block size, ring size and base, where block 0 gives them.
pub fn ring(image: &[u8]) -> Option<(u64, u64, u64)> {
    let size = u64::from(get32(image.get(..4096)?, 36));
    let fits = image[32..36] == *b"NXSB" && (4096..=65536).contains(&size) && size.count_ones() == 1;
    let blocks = u64::from(get32(image, 104));
    (fits && image.len() as u64 >= size && blocks < 1 << 31).then(|| (size, blocks, get64(image, 112)))
}

pub fn outside(image: &[u8]) -> Option<Outside> {
    let (size, blocks, base) = ring(image)?;
    if size * blocks > LARGEST_RING {
        return Some(Outside::Ring);
    }
    let start = usize::try_from(base.checked_mul(size)?).ok()?;
    let area = image.get(start..start.checked_add((size * blocks) as usize)?)?;
    let long = |b: &[u8]| b[32..36] == *b"NXSB" && u64::from(get32(b, 140)) * size > LONGEST_MAPS;
    let endless = |b: &[u8]| long(b) && (0..blocks).all(|k| goes_on(image, b, size, k, blocks));
    area.chunks(size as usize).any(endless).then_some(Outside::Maps)
}

/// Whether map `k` of the superblock `b` lets the next one be read.
fn goes_on(image: &[u8], b: &[u8], size: u64, k: u64, blocks: u64) -> bool {
    let place = (u64::from(get32(b, 136)) + k) % blocks;
    let at = get64(b, 112).checked_add(place).and_then(|n| n.checked_mul(size));
    let Some(at) = at.and_then(|n| usize::try_from(n).ok()) else { return false };
    let Some(map) = at.checked_add(size as usize).and_then(|end| image.get(at..end)) else { return false };
    get32(map, 24) & 0xffff == CHECKPOINT_MAP && get64(map, 16) == get64(b, 16) && get32(map, 32) & 1 == 0
}
