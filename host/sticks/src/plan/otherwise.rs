//! The same contents stored otherwise: what no reader shows is drawn anew.

use crate::contents::{
    text, Attribute, Contents, Entry, Extent, Field, File, Inode, Key, Source, Stream, NAME_FIELD, STREAM_FIELD,
};
use crate::plan::files::others;
use crate::plan::keys::{counts, SHORTEST};
use crate::random::Random;
use crate::volume::LABEL;

/// No name is made longer, as its record must fit into a node.
const LONGEST: usize = 1000;
const KIND: u16 = 0xf;

pub fn contents(c: &Contents, r: &mut Random) -> Contents {
    Contents {
        label: name(&c.label, LABEL, r),
        files: c.files.iter().map(|f| file(f, c.has_hashed_keys(), r)).collect(),
        streams: c.streams.iter().map(|s| if c.regular { stream(s, r) } else { s.clone() }).collect(),
        others: if c.regular { others(&c.files, r) } else { c.others.clone() },
        ..c.clone()
    }
}

fn file(f: &File, hashed: bool, r: &mut Random) -> File {
    let attribute = |a: &Attribute, r: &mut Random| Attribute { name: name(&a.name, LONGEST, r), ..a.clone() };
    File {
        inode: inode(&f.inode, r),
        attributes: f.attributes.iter().map(|a| attribute(a, r)).collect(),
        entries: f.entries.iter().map(|e| entry(e, hashed, r)).collect(),
    }
}

/// Bytes with the same lossy reading up to the first zero byte.
fn name(stored: &[u8], most: usize, r: &mut Random) -> Vec<u8> {
    let mut other = text(stored).into_bytes();
    if r.chance(1, 4) {
        other.extend([0, r.pick(b"az\0"), 0xff]);
    }
    if other.len() > most || r.chance(1, 2) {
        stored.to_vec()
    } else {
        other
    }
}

fn entry(e: &Entry, hashed: bool, r: &mut Random) -> Entry {
    let name = name(&e.name, LONGEST, r);
    let key = match e.key {
        Key::Wrong | Key::Raw => e.key,
        _ if name.is_empty() => Key::Hashed,
        _ => r.pick(&[Key::Hashed, Key::Plain, Key::Bare]),
    };
    let key = key.formed(hashed);
    let flags = e.flags & KIND | r.pick(&[0, 0x10, 0xfff0]);
    // A key that the Rust reads is not made too short for it.
    let short = key.length(&name) < SHORTEST && e.key.length(&e.name) >= SHORTEST;
    if short || !counts(key, &name) {
        return Entry { flags, ..e.clone() };
    }
    Entry { key, name, flags, ..e.clone() }
}

/// Fields in another order, among others that say nothing.
fn inode(i: &Inode, r: &mut Random) -> Inode {
    let mut groups: Vec<Vec<Field>> = Vec::new();
    for kind in [NAME_FIELD, STREAM_FIELD] {
        groups.extend(i.last(kind).map(|f| copies(f, r)));
    }
    if r.chance(1, 3) {
        groups.push(vec![Field { kind: r.pick(&[13, 200]), flags: 2, data: vec![7; r.place(20)] }]);
    }
    r.shuffle(&mut groups);
    Inode { fields: groups.concat(), short: r.pick(&[0, 10, 7, 1]), ..i.clone() }
}

/// A field, and before it perhaps a copy that does not count.
fn copies(f: &Field, r: &mut Random) -> Vec<Field> {
    let mut last = Field { flags: r.pick(&[0, 1, 2, 0x20]), ..f.clone() };
    if f.kind == NAME_FIELD {
        last.data = name(&f.data, LONGEST, r);
    } else {
        // Size and allocated size are followed by what nobody asks for.
        last.data.truncate(16);
        last.data.resize(r.pick(&[16, 17, 40]), 0xee);
    }
    let before = Field { kind: f.kind, flags: 0, data: vec![b'o'; 16] };
    if r.chance(1, 4) {
        vec![before, last]
    } else {
        vec![last]
    }
}

/// The same bytes in other extents.
fn stream(s: &Stream, r: &mut Random) -> Stream {
    let mut extents = Vec::new();
    for e in s.extents.iter().filter(|e| e.length > 0) {
        match e.source {
            // A hole is as good as none, or as zeros.
            Source::Hole if r.chance(1, 3) => {}
            Source::Hole if r.chance(1, 2) => {
                let source = Source::Bytes(vec![0; e.length as usize]);
                extents.push(Extent { source, ..e.clone() });
            }
            _ => cut(e.clone(), &mut extents, r),
        }
        if r.chance(1, 8) {
            let empty = Extent { logical: e.logical + e.length, length: 0, source: Source::Block(r.below(2)) };
            extents.push(empty);
        }
    }
    Stream { id: s.id, extents }
}

/// An extent in one piece, or joined to the one before it, or in several.
fn cut(mut rest: Extent, out: &mut Vec<Extent>, r: &mut Random) {
    if let (Some(before), true) = (out.last_mut(), r.chance(1, 3)) {
        if join(before, &rest) {
            return;
        }
    }
    while rest.length > 1 && r.chance(1, 3) {
        let at = r.between(1, rest.length - 1);
        let (first, second) = match &rest.source {
            Source::Bytes(b) => {
                let (first, second) = b.split_at(at as usize);
                (Source::Bytes(first.to_vec()), Source::Bytes(second.to_vec()))
            }
            other => (other.clone(), other.clone()),
        };
        out.push(Extent { logical: rest.logical, length: at, source: first });
        rest = Extent { logical: rest.logical + at, length: rest.length - at, source: second };
    }
    out.push(rest);
}

/// Puts `next` to the end of `e`, if its bytes belong there.
fn join(e: &mut Extent, next: &Extent) -> bool {
    let (Source::Bytes(bytes), Source::Bytes(more)) = (&mut e.source, &next.source) else { return false };
    if e.logical + e.length != next.logical {
        return false;
    }
    bytes.truncate(e.length as usize);
    bytes.extend(more);
    e.length += next.length;
    true
}
