//! Fields by their place in a block, for each kind of object.

use crate::block::{get16, get32, BTREE, BTREE_NODE, CHECKPOINT_MAP, FS, NX_SUPERBLOCK, OMAP};
pub use crate::node::HEAD as DATA;
use crate::node::{FIXED, HEAD, INFO, LEAF, ROOT};
use crate::random::Random;

/// A field, and values that readers tell apart in it.
#[derive(Clone, Copy, Debug, PartialEq, Eq)]
pub struct Field {
    pub at: usize,
    pub width: usize,
    pub values: &'static [u64],
}

const fn f(at: usize, width: usize, values: &'static [u64]) -> Field {
    Field { at, width, values }
}

const KINDS: &[u64] =
    &[0xb, 0x4000_000b, 0x8000_000b, 0x5000_000b, 1, 0x4000_0001, 2, 3, 0x4000_0002, 0xc, 0xd, 0x1_0002];
const SIZES: &[u64] = &[2048, 4096, 8192, 12288, 65536, 131_072];
const ENTRIES: &[u64] = &[101, 102, 1637, 1638];

const OID: Field = f(8, 8, &[]);
const XID: Field = f(16, 8, &[]);
const TYPE: Field = f(24, 4, KINDS);
const HEADER: [Field; 4] = [OID, XID, TYPE, f(28, 4, KINDS)];

const SUPERBLOCK: [Field; 13] = [
    XID,
    f(32, 4, &[0x4253_584e, 0x4253_5041]), // magic
    f(36, 4, SIZES),
    f(40, 8, &[]),                                            // block count
    f(64, 8, &[1, 2, 0x100, 0x101]),                          // features
    f(104, 4, &[0, 1, 2, 7, 8, 9, 0x8000_0000, 0x8000_0008]), // ring
    f(112, 8, &[1 << 52, (1 << 52) - 1, u64::MAX]),           // its base
    f(136, 4, &[]),                                           // index
    f(140, 4, &[0, 1, 2, 3, 9]),                              // length
    f(160, 8, &[0]),                                          // object map
    f(180, 4, &[0, 1, 99, 100, 101]),                         // slots
    f(184, 8, &[]),
    f(192, 8, &[]),
];
/// Transaction, flags, count.
const MAP: [Field; 3] = [XID, f(32, 4, &[0, 1, 2, 3]), f(36, 4, ENTRIES)];
/// Flags, type of the tree, its root.
const OBJECT_MAP: [Field; 4] =
    [TYPE, f(32, 4, &[]), f(40, 4, &[2, 0x4000_0000, 0x8000_0002, 0xc000_0002]), f(48, 8, &[0])];
/// Magic, features, object map, root, flags.
const VOLUME: [Field; 5] =
    [f(32, 4, &[]), f(56, 8, &[1, 8, 9, 0x20]), f(128, 8, &[]), f(136, 8, &[]), f(264, 8, &[0, 1, 2])];
/// Flags, level, count of keys.
const NODE: [Field; 3] =
    [f(32, 2, &[0, 1, 2, 3, 5, 7, 8, 9, 0xb, 0xf]), f(34, 2, &[0, 1, 2, 31, 32, 33]), f(36, 4, &[0, 1, 2])];
/// Flags of the tree, sizes of keys and values.
const TREE: [(usize, &[u64]); 3] = [(0, &[0, 0x10, 0xef]), (8, &[8, 15, 16, 17]), (12, &[8, 15, 16, 17])];

/// A field of the block, by its kind; none where it is of no known kind.
pub fn pick(b: &[u8], r: &mut Random) -> Option<Field> {
    if r.chance(1, 8) {
        return Some(r.pick(&HEADER));
    }
    match get32(b, 24) & 0xffff {
        NX_SUPERBLOCK => Some(r.pick(&SUPERBLOCK)),
        CHECKPOINT_MAP => Some(r.pick(&MAP)),
        OMAP => Some(r.pick(&OBJECT_MAP)),
        FS => Some(r.pick(&VOLUME)),
        BTREE | BTREE_NODE => Some(of_node(b, r)),
        _ => None,
    }
}

pub fn is_node(b: &[u8]) -> bool {
    matches!(get32(b, 24) & 0xffff, BTREE | BTREE_NODE)
}

fn of_node(b: &[u8], r: &mut Random) -> Field {
    let root = get16(b, 32) & ROOT != 0;
    let place = match r.below(8) {
        0..=2 => None,
        3 if root => {
            let (at, values) = r.pick(&TREE);
            Some(f(b.len() - INFO + at, 4, values))
        }
        4 | 5 => entry(b, r),
        _ => part(b, r),
    };
    place.filter(|p| p.at + p.width <= b.len()).unwrap_or_else(|| r.pick(&NODE))
}

fn entry_at(b: &[u8], r: &mut Random) -> Option<(usize, usize)> {
    let keys = (get32(b, 36) as usize).min(b.len() / 4);
    let size = if get16(b, 32) & FIXED != 0 { 4 } else { 8 };
    let at = HEAD + get16(b, 40) as usize + r.place(keys.max(1)) * size;
    (keys > 0 && at + size <= b.len()).then_some((at, size))
}

/// An offset or a length in the table of contents.
fn entry(b: &[u8], r: &mut Random) -> Option<Field> {
    let (at, size) = entry_at(b, r)?;
    Some(f(at + 2 * r.place(size / 2), 2, &[]))
}

/// A word of some key or value.
fn part(b: &[u8], r: &mut Random) -> Option<Field> {
    let (at, size) = entry_at(b, r)?;
    let flags = get16(b, 32);
    if r.chance(1, 3) {
        let keys = HEAD + get16(b, 40) as usize + get16(b, 42) as usize;
        let width = r.pick(&[2, 8, 8]);
        return Some(f(keys + get16(b, at) as usize + r.pick(&[0, 8]), width, &[]));
    }
    let end = b.len() - if flags & ROOT != 0 { INFO } else { 0 };
    let start = end.checked_sub(get16(b, at + size / 2) as usize)?;
    let inside = if flags & LEAF != 0 { r.pick(&[0, 0, 4, 8, 8, 80, 92, 96]) } else { 0 };
    Some(f(start + inside, r.pick(&[4, 8]), &[1, 4, 5]))
}
