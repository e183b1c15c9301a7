//! The same volumes with names that a lossy reading patches up, or that only look so.

use crate::contents::{text, Attribute, Contents, Data, Entry, Field, Inode, Key, Stream, LINK_ATTRIBUTE, NAME_FIELD};
use crate::plan::keys::SHORTEST;
use crate::plan::{data, names};
use crate::random::Random;
use crate::volume::LABEL;

pub fn contents(c: &Contents, block_size: usize, r: &mut Random) -> Contents {
    let mut out = Contents { label: label(r), ..c.clone() };
    for f in &mut out.files {
        inode(&mut f.inode, r);
        entries(&mut f.entries, r);
        f.attributes.iter_mut().for_each(|a| attribute(a, r));
    }
    if out.regular {
        targets(&mut out, block_size, r);
    }
    out
}

/// Some labels fill their field, and end within a character.
fn label(r: &mut Random) -> Vec<u8> {
    if r.chance(7, 8) {
        return names::patched(r);
    }
    let cut = &"\u{20ac}".as_bytes()[..r.pick(&[1, 2])];
    [&vec![b'l'; LABEL - cut.len()], cut].concat()
}

/// Each copy of the name has its own bytes, and perhaps there is one more.
fn inode(i: &mut Inode, r: &mut Random) {
    i.fields.iter_mut().filter(|f| f.kind == NAME_FIELD).for_each(|f| f.data = names::patched(r));
    if r.chance(1, 3) {
        let at = r.place(i.fields.len() + 1);
        i.fields.insert(at, Field { kind: NAME_FIELD, flags: 2, data: names::patched(r) });
    }
}

fn entries(list: &mut [Entry], r: &mut Random) {
    for i in 0..list.len() {
        list[i].name = match r.below(6) {
            0 => continue,
            // What the one before reads as, typed.
            1 if i > 0 && !text(&list[i - 1].name).is_empty() => text(&list[i - 1].name).into_bytes(),
            _ => names::patched(r),
        };
        // The Rust reads no shorter key.
        if list[i].key.length(&list[i].name) < SHORTEST {
            list[i].key = Key::Plain;
        }
    }
}

fn attribute(a: &mut Attribute, r: &mut Random) {
    if a.name != LINK_ATTRIBUTE {
        a.name = names::patched(r);
    } else if r.chance(1, 8) {
        a.name.extend([0, 0xff]);
    }
}

/// Another text for each link, embedded or in a stream as before. Streams that have faults are not for here.
fn targets(c: &mut Contents, block_size: usize, r: &mut Random) {
    let attributes = c.files.iter_mut().flat_map(|f| &mut f.attributes);
    for a in attributes.filter(|a| a.name.starts_with(LINK_ATTRIBUTE)) {
        let mut bytes = names::patched(r);
        if r.chance(1, 2) {
            bytes.extend([b"/".to_vec(), names::patched(r)].concat());
        }
        match &mut a.data {
            Data::Embedded(data) => *data = bytes,
            Data::Stream { id, size } => *size = put(&mut c.streams, *id, &bytes, block_size, r),
        }
    }
}

/// The stream's new size.
fn put(streams: &mut [Stream], id: u64, bytes: &[u8], block_size: usize, r: &mut Random) -> u64 {
    let Some(s) = streams.iter_mut().find(|s| s.id == id) else { return 0 };
    s.extents = data::text(bytes, block_size, r);
    bytes.len() as u64
}
