//! What two volumes of the same contents are asked.

use sticks::contents::{text, Contents, Extent, File};
use sticks::random::Random;

use crate::calls::call::Call;
use crate::calls::draw;
use crate::pairs::planned::reached;

/// Of a volume with more paths, some are left out.
const PATHS: usize = 40;
const READS: usize = 3;
const LONGEST_READ: u64 = 1 << 16;
/// So many files have their lists and links asked for.
const FILES: usize = 6;

pub fn drawn(c: &Contents, r: &mut Random) -> Vec<Call> {
    let mut files: Vec<&File> = reached(c).into_iter().map(|i| &c.files[i]).collect();
    let mut out: Vec<Call> = paths(c).into_iter().map(|path| Call::Lookup { path }).collect();
    out.extend(draw::lookups(c, r));
    for f in &files {
        let extents = c.stream(f.inode.private);
        let reads = if f.inode.stream().is_some() { READS } else { 1 };
        out.extend((0..reads).map(|_| read(f, extents, r)));
    }
    r.shuffle(&mut files);
    files.iter().take(FILES).for_each(|f| out.extend(lists(f, r)));
    out
}

/// The paths to all that is there, nearest first.
fn paths(c: &Contents) -> Vec<Vec<u8>> {
    let mut out = vec![(2, Vec::new())];
    let mut next = 0;
    while let (Some((id, path)), true) = (out.get(next).cloned(), out.len() < PATHS) {
        let entries = c.file(id).map_or(&[][..], |f| &f.entries);
        out.extend(entries.iter().map(|e| (e.id, [&path, b"/".as_slice(), text(&e.name).as_bytes()].concat())));
        next += 1;
    }
    out.truncate(PATHS);
    out.into_iter().map(|(_, path)| path).collect()
}

fn read(f: &File, extents: &[Extent], r: &mut Random) -> Call {
    let size = f.inode.stream().map_or(0, |s| s.0);
    let edge = extents.get(r.place(extents.len().max(1))).map_or(0, |e| e.logical + e.length * r.below(2));
    let offset = match r.below(8) {
        0 => 0,
        1 => size.saturating_sub(1),
        2 => r.pick(&[size, size + 1, u64::MAX]),
        3..=5 => (edge + r.below(3)).saturating_sub(1),
        _ => r.below(size + 1),
    };
    let length = r.pick(&[0, 1, 100, 4096, 9000, size + 1, LONGEST_READ]).min(LONGEST_READ);
    Call::Read { id: f.inode.id, offset, length: length as usize }
}

/// Each list at a place that may lie past its end, and the link.
fn lists(f: &File, r: &mut Random) -> Vec<Call> {
    let id = f.inode.id;
    vec![
        Call::Entry { id, place: r.below(f.entries.len() as u64 + 2) },
        Call::Entries { id, place: r.below(f.entries.len() as u64 + 2), length: r.pick(&[0, 60, 200, 4000]) },
        Call::Xattr { id, place: r.below(f.attributes.len() as u64 + 2) },
        Call::XattrBytes { id, place: r.below(f.attributes.len() as u64 + 2) },
        Call::Link { id },
    ]
}
