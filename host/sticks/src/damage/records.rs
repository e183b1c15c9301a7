//! Fields of the records in a leaf of a file-system tree.

use crate::block::{get16, get32, get64};
use crate::damage::fields::Field;
use crate::node::{FIXED, HEAD, INFO, LEAF, ROOT};
use crate::random::Random;
use crate::record::{DIR_REC, FILE_EXTENT, INODE, XATTR};

/// The stored kind of a key, then a key's or value's place, a field's width, and values that tell.
type Known = (u64, Part, usize, usize, &'static [u64]);

#[derive(Clone, Copy, PartialEq, Eq)]
enum Part {
    Key,
    Value,
}

use Part::{Key, Value};

const FLAGS: &[u64] = &[0, 0x20, 0x21, 0xffff_ffff];
const COUNTS: &[u64] = &[0, 1, 2, 3, 4, 5, 200];
const FIELD_KINDS: &[u64] = &[4, 8, 0x2008, 0x0204, 13];
const FIELD_SIZES: &[u64] = &[0, 1, 7, 8, 9, 15, 16, 17, 40];
const SIZES: &[u64] = &[0, 1, 4096, 8192, 1 << 20, 1 << 23, 1 << 34, u64::MAX];
const LENGTHS: &[u64] = &[0, 1, 4095, 4096, 4097, 8192, (1 << 56) - 1, 1 << 56, u64::MAX];
const STARTS: &[u64] = &[0, 1, 100, 4096, 8192, u64::MAX, u64::MAX - 4096];
const BLOCKS: &[u64] = &[0, 1, 2, 1 << 40, 1 << 52, u64::MAX];

const KNOWN: [Known; 22] = [
    (INODE, Value, 0, 8, &[]),
    (INODE, Value, 8, 8, &[2, 16, 17, 18]), // private id
    (INODE, Value, 56, 4, &[0x8000_0000, 0xffff_ffff, 0x7fff_ffff]),
    (INODE, Value, 68, 4, FLAGS),
    (INODE, Value, 80, 2, &[0x41ed, 0x81a4, 0xa1ff]),
    (INODE, Value, 92, 2, COUNTS),
    (INODE, Value, 96, 2, FIELD_KINDS),
    (INODE, Value, 98, 2, FIELD_SIZES),
    (INODE, Value, 100, 2, FIELD_KINDS),
    (INODE, Value, 102, 2, FIELD_SIZES),
    (INODE, Value, 100, 8, SIZES), // the size, where the stream's is the only field
    (XATTR, Key, 8, 2, &[0, 1, 21]),
    (XATTR, Value, 0, 2, &[0, 1, 2, 3]),
    (XATTR, Value, 2, 2, &[0, 15, 16, 48]),
    (XATTR, Value, 4, 8, &[2, 16, 17]),
    (XATTR, Value, 12, 8, SIZES),
    (FILE_EXTENT, Key, 8, 8, STARTS),
    (FILE_EXTENT, Value, 0, 8, LENGTHS),
    (FILE_EXTENT, Value, 8, 8, BLOCKS),
    (DIR_REC, Key, 8, 2, &[0, 1, 2]),
    (DIR_REC, Value, 0, 8, &[0, 2, 3, 16, 17, 1 << 60 | 2]),
    (DIR_REC, Value, 16, 2, &[0, 3, 4, 8, 10, 14, 0xfff5]),
];

/// Where the key and the value of an entry start, and its place in the table of contents.
struct Entry {
    toc: usize,
    size: usize,
    key: usize,
    value: usize,
}

fn entry(b: &[u8], i: usize) -> Option<Entry> {
    let flags = get16(b, 32);
    let size = if flags & FIXED != 0 { 4 } else { 8 };
    let toc = HEAD + get16(b, 40) as usize + i * size;
    if toc + size > b.len() {
        return None;
    }
    let key = HEAD + get16(b, 40) as usize + get16(b, 42) as usize + get16(b, toc) as usize;
    let end = b.len() - if flags & ROOT != 0 { INFO } else { 0 };
    let value = end.checked_sub(get16(b, toc + size / 2) as usize)?;
    (key + 8 <= b.len()).then_some(Entry { toc, size, key, value })
}

/// The value of some extent's record.
pub fn extent(b: &[u8], r: &mut Random) -> Option<usize> {
    let keys = (get32(b, 36) as usize).min(b.len() / 4);
    if get16(b, 32) & LEAF == 0 {
        return None;
    }
    let is_extent = |e: &Entry| get64(b, e.key) >> 60 == FILE_EXTENT && e.value + 16 <= b.len();
    let all: Vec<usize> = (0..keys).filter_map(|i| entry(b, i)).filter(is_extent).map(|e| e.value).collect();
    (!all.is_empty()).then(|| r.pick(&all))
}

/// A field of some record; none in an index node.
pub fn pick(b: &[u8], r: &mut Random) -> Option<Field> {
    let keys = (get32(b, 36) as usize).min(b.len() / 4);
    if get16(b, 32) & LEAF == 0 || keys == 0 {
        return None;
    }
    let e = entry(b, r.place(keys))?;
    let kind = get64(b, e.key) >> 60;
    let known: Vec<Known> = KNOWN.into_iter().filter(|k| k.0 == kind).collect();
    let field = match r.below(10) {
        0 => Field { at: e.toc + 2 * r.place(e.size / 2), width: 2, values: &[0xffff] },
        1 => Field { at: e.key, width: 8, values: &[] },
        2 => Field { at: e.key + r.pick(&[10, 12, 13]), width: 2, values: &[0, 0x41, 0xff41, 0xa0ed] },
        _ if known.is_empty() => return None,
        _ => {
            let (_, part, at, width, values) = r.pick(&known);
            Field { at: at + if part == Key { e.key } else { e.value }, width, values }
        }
    };
    (field.at + field.width <= b.len()).then_some(field)
}
