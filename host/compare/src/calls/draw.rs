//! Calls drawn for a volume, by the plan of its stick.

use oracle::fs::Extent;
use sticks::contents::{self, Contents, File};
use sticks::random::Random;

use crate::calls::call::Call;
use crate::calls::line;
use crate::calls::lists::Lists;
use crate::calls::replaced::{ATTRIBUTE, ENTRY, INODE, LABEL, LINK};

const ROOT: u64 = 2;
const LOOKUPS: usize = 10;
const READS: usize = 6;
const FILES: usize = 2;
/// Of a longer list only some places are asked for.
const PLACES: u64 = 5;
const LONGEST_READ: u64 = 1 << 17;
const ROOM: usize = 300;
/// So many buffers are tried at each place that there are entries from.
const ROOMS: usize = 4;
/// Some of them are kinds in their low bits.
const NO_KINDS: [u64; 6] = [5, 6, 255, 256, 1 << 32 | 2, u64::MAX];
const WIDE: [&str; 4] = ["é", "日本", "\u{1f9ed}", "\u{fffd}"];

pub fn lookups(c: &Contents, r: &mut Random) -> Vec<Call> {
    (0..LOOKUPS).map(|_| Call::Lookup { path: path(c, r) }).collect()
}

/// One call of each kind, for a volume that may not open.
pub fn each(r: &mut Random) -> Vec<Call> {
    let (id, place) = (r.pick(&[ROOT, 0, 16, u64::MAX]), r.pick(&[0, 0, 1, u64::MAX]));
    vec![
        Call::Lookup { path: r.pick(&["", "a", "\\", "é"]).into() },
        Call::Lookup { path: vec![b'a', 0xff] },
        Call::Read { id, offset: place, length: r.place(9) },
        Call::Entry { id, place },
        Call::Entries { id, place, length: ROOM },
        Call::Xattr { id, place },
        Call::XattrBytes { id, place },
        Call::Link { id },
        Call::Extent { id, place },
    ]
}

/// A name of each kind and of none, for a volume that may not open.
pub fn each_name(r: &mut Random) -> Vec<Call> {
    let (id, place) = (r.pick(&[ROOT, 0, 16, u64::MAX]), r.pick(&[0, 0, 1, u64::MAX]));
    (LABEL..=LINK).chain([r.pick(&NO_KINDS)]).map(|kind| Call::Replaced { kind, id, place }).collect()
}

fn path(c: &Contents, r: &mut Random) -> Vec<u8> {
    let mut path = match r.below(12) {
        0 => return r.pick(&["", "/", "//", "\\", "\\/\\", "/ "]).into(),
        1 => {
            let n = r.place(9);
            return r.bytes(n);
        }
        _ => follow(c, r),
    };
    match r.below(16) {
        0 => path.insert(r.place(path.len() + 1), r.pick(&[0xff, 0x80, 0xc3, 0])),
        1 => path.extend(r.pick(&["/", "\\", "//", "/nowhere"]).bytes()),
        2 => path.extend([b"/", r.pick(&WIDE).as_bytes()].concat()),
        _ => {}
    }
    path
}

/// Names as the plan has them, some of them changed.
fn follow(c: &Contents, r: &mut Random) -> Vec<u8> {
    let (mut at, mut path) = (ROOT, Vec::new());
    if r.chance(1, 2) {
        path.extend(r.pick(&["/", "\\"]).bytes());
    }
    while let Some(dir) = c.file(at).filter(|f| !f.entries.is_empty() && r.chance(6, 7)) {
        let e = r.pick(&dir.entries);
        path.extend(if r.chance(1, 12) { e.name } else { changed(contents::text(&e.name), r) });
        path.extend(r.pick(&["/", "/", "\\", "//", "\\/"]).bytes());
        at = e.id;
    }
    if r.chance(2, 3) {
        path.pop();
    }
    path
}

fn changed(name: String, r: &mut Random) -> Vec<u8> {
    let wide = r.pick(&WIDE);
    let other = |c: char| if c.is_ascii_lowercase() { c.to_ascii_uppercase() } else { c.to_ascii_lowercase() };
    let name = match r.below(12) {
        0 => name.to_ascii_uppercase(),
        1 => name.to_ascii_lowercase(),
        2 => name.chars().map(other).collect(),
        3 => r.pick(&[name.clone() + "?", name.chars().skip(1).collect(), name + wide]),
        _ => name,
    };
    name.into_bytes()
}

/// Some files of the plan, and ids that are none or hidden by the record's kind.
pub fn ids(c: &Contents, r: &mut Random) -> Vec<u64> {
    let all: Vec<&File> = c.files.iter().collect();
    let rich: Vec<&File> = all.iter().copied().filter(|f| is_rich(f)).collect();
    let one = |of: &[&File], r: &mut Random| of.get(r.place(of.len().max(1))).map_or(ROOT, |f| f.inode.id);
    let file = |r: &mut Random| one(&all, r);
    let mut out: Vec<u64> = (0..FILES).flat_map(|_| [file(r), one(&rich, r)]).collect();
    if r.chance(1, 3) {
        let id = file(r);
        out.push(r.pick(&[ROOT, 0, 1, 5, id + 1, id | 1 << 60, id | 3 << 60, u64::MAX]));
    }
    out.sort();
    out.dedup();
    out
}

fn is_rich(f: &File) -> bool {
    f.inode.stream().is_some_and(|s| s.0 > 0) || !f.attributes.is_empty()
}

/// Calls on one id, by how long the oracle's lists are.
pub fn on(l: &Lists, id: u64, block_size: u64, r: &mut Random) -> Vec<Call> {
    let extents = l.extents.as_deref().unwrap_or_default();
    let entries = l.entries.as_ref().map_or(1, Vec::len);
    let xattrs = l.xattrs.as_ref().map_or(1, Vec::len);
    let mut out: Vec<Call> = places(entries, r).into_iter().map(|place| Call::Entry { id, place }).collect();
    out.extend(places(xattrs, r).into_iter().map(|place| Call::Xattr { id, place }));
    out.extend(places(extents.len(), r).into_iter().map(|place| Call::Extent { id, place }));
    out.push(Call::Link { id });
    let reads = if l.size() > 0 { READS } else { 1 };
    out.extend((0..reads).map(|_| read(id, l.size(), extents, block_size, r)));
    out
}

/// Entries from a place on in one call, and the bytes of attributes.
pub fn in_one_call(l: &Lists, id: u64, r: &mut Random) -> Vec<Call> {
    let lines: Vec<usize> = l.entries.iter().flatten().map(|e| line::entry(e).len()).collect();
    let xattrs = l.xattrs.as_ref().map_or(1, Vec::len);
    let mut out: Vec<Call> = places(xattrs, r).into_iter().map(|place| Call::XattrBytes { id, place }).collect();
    for place in places(lines.len(), r) {
        let rest = usize::try_from(place).ok().and_then(|i| lines.get(i..)).unwrap_or_default();
        let rooms = if rest.is_empty() { 1 } else { ROOMS };
        out.extend((0..rooms).map(|_| Call::Entries { id, place, length: room(rest, r) }));
    }
    out
}

/// Of a name of one id, or of a place past the end of one of its lists.
pub fn name(l: &Lists, id: u64, r: &mut Random) -> Call {
    let kind = r.pick(&[INODE, ENTRY, ENTRY, ATTRIBUTE, ATTRIBUTE, LINK]);
    let length = match kind {
        ENTRY => l.entries.as_ref().map_or(0, Vec::len),
        ATTRIBUTE => l.xattrs.as_ref().map_or(0, Vec::len),
        _ => 0,
    };
    let place = if r.chance(1, 16) { u64::MAX } else { r.below(length as u64 + 1) };
    Call::Replaced { kind, id, place }
}

/// About as long as none, some or all of the lines.
fn room(lines: &[usize], r: &mut Random) -> usize {
    let some = lines.iter().take(r.place(lines.len() + 1)).sum::<usize>();
    let (first, all) = (lines.first().copied().unwrap_or(0), lines.iter().sum::<usize>());
    match r.below(8) {
        0 => 0,
        1 => first.saturating_sub(1),
        2 => first,
        3 => some,
        4 => some.saturating_sub(1),
        5 => some + r.place(40),
        6 => all.saturating_sub(r.place(2)),
        _ => all + r.place(ROOM),
    }
}

/// Every place up to one past the end of a short list, the ends and some others of a long one.
fn places(n: usize, r: &mut Random) -> Vec<u64> {
    let n = n as u64;
    let mut out: Vec<u64> = if n <= PLACES { (0..=n).collect() } else { vec![0, r.below(n), n - 1, n] };
    if r.chance(1, 8) {
        out.push(r.pick(&[n + 1, n + 1000, 1 << 32, u64::MAX]));
    }
    out
}

fn read(id: u64, size: u64, extents: &[Extent], bs: u64, r: &mut Random) -> Call {
    let edge = match extents.len() {
        0 => 0,
        n => {
            let e = extents[r.place(n)];
            r.pick(&[e.logical, e.logical.saturating_add(e.len)])
        }
    };
    let offset = match r.below(10) {
        0 | 1 => 0,
        2 => r.pick(&[size, size.saturating_add(1), u64::MAX, 1 << 40]),
        3 => size.saturating_sub(1),
        4 | 5 => edge.saturating_sub(r.below(3)),
        6 => edge.saturating_add(r.below(3)),
        _ => r.below(size.saturating_add(2).max(1)),
    };
    let left = size.saturating_sub(offset);
    let length = match r.below(8) {
        0 => r.below(2),
        1 => r.below(100),
        2 => bs,
        3 => left,
        4 => left.saturating_add(1),
        5 => r.below(left.saturating_add(1).max(1)),
        _ => r.below(4 * bs),
    };
    Call::Read { id, offset, length: length.min(LONGEST_READ) as usize }
}
