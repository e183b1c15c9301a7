//! The extents of data streams.

use crate::contents::{Extent, Source};
use crate::random::Random;

const LENGTH_MASK: u64 = 0x00ff_ffff_ffff_ffff;

/// Extents in order and apart, some of them holes or of no length, and a size near their end.
pub fn regular(block_size: usize, r: &mut Random) -> (Vec<Extent>, u64) {
    let bs = block_size as u64;
    let (mut at, mut out) = (0, Vec::new());
    for _ in 0..r.pick(&[0, 1, 1, 1, 2, 3, 5]) {
        at += r.pick(&[0, 0, 0, bs, 100, 3 * bs]);
        let length = r.pick(&[bs, bs, 2 * bs, 0, 1, bs - 1, bs + 1]);
        let source = if r.chance(1, 5) { Source::Hole } else { bytes(length, bs, r) };
        out.push(Extent { logical: at, length, source });
        at += length;
    }
    let size = match r.below(4) {
        0 => r.below(at + 1),
        1 => at + r.below(bs),
        _ => at,
    };
    (out, size)
}

fn bytes(length: u64, bs: u64, r: &mut Random) -> Source {
    match length {
        0 => Source::Block(r.below(2)), // within any container, as streams of attributes want it
        n => Source::Bytes(r.bytes(n.next_multiple_of(bs) as usize)),
    }
}

/// Extents that descend, overlap, or lie outside the container.
pub fn irregular(block_size: usize, r: &mut Random) -> (Vec<Extent>, u64) {
    let (mut list, mut size) = regular(block_size, r);
    let bs = block_size as u64;
    for _ in 0..r.between(1, 3) {
        let at = r.place(list.len() + 1);
        list.insert(at, stray(bs, r));
    }
    match r.below(5) {
        0 => list.reverse(),
        1 => {}
        _ => list.sort_by_key(|e| e.logical),
    }
    match r.below(4) {
        0 => size = r.pick(&[0, 1, 1 << 20, 1 << 23, 1 << 34, u64::MAX]),
        1 => size = size.max(list.iter().map(|e| e.logical.saturating_add(e.length).min(5 * bs)).max().unwrap_or(0)),
        _ => {}
    }
    (list, size)
}

fn stray(bs: u64, r: &mut Random) -> Extent {
    let logical = r.pick(&[0, 1, bs, bs + 100, 2 * bs, 77, 3 * bs, u64::MAX - 10, 1 << 50]);
    let length = r.pick(&[0, 0, bs, bs, 3 * bs, 5, LENGTH_MASK, u64::MAX]);
    let block = r.pick(&[0, 1, 2, 3, 9, 20, 40, 500, 900, 5000, 1 << 39, 1 << 52, 1 << 52, u64::MAX - 1]);
    Extent { logical, length, source: Source::Block(block) }
}

/// A text in extents that may part anywhere, also within a character.
pub fn text(bytes: &[u8], block_size: usize, r: &mut Random) -> Vec<Extent> {
    let (mut at, mut out) = (0, Vec::new());
    while at < bytes.len() {
        let left = bytes.len() - at;
        let n = r.pick(&[left, 1, 2, 3, 1 + r.clone().place(left)]).min(left);
        let mut data = bytes[at..at + n].to_vec();
        // What follows in the block is no part of the text.
        data.extend(vec![b'!'; n.next_multiple_of(block_size) - n]);
        out.push(Extent { logical: at as u64, length: n as u64, source: Source::Bytes(data) });
        at += n;
    }
    out
}
