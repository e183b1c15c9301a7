//! One thing of a volume changed.

use sticks::contents::{
    Attribute, Contents, Data, Entry, Extent, Field, File, Inode, Source, Stream, COMPRESSED, NAME_FIELD, STREAM_FIELD,
    STREAM_FLAG,
};
use sticks::random::Random;

use crate::pairs::planned::reached;

/// A volume's contents, and the places of the files that its root leads to.
struct Volume<'r> {
    c: Contents,
    reached: Vec<usize>,
    r: &'r mut Random,
}

/// Nothing where there is no such thing to change.
type Change = fn(&mut Volume) -> Option<()>;

/// What is changed, and how.
const ALL: [(&str, Change); 37] = [
    ("parent", |v| v.inode(|i| i.parent ^= 1)),
    ("private id", |v| v.inode(|i| i.private ^= 1)),
    ("create time", |v| v.inode(|i| i.times[0] ^= 1)),
    ("modify time", |v| v.inode(|i| i.times[1] ^= 1 << 63)),
    ("change time", |v| v.inode(|i| i.times[2] ^= 1 << 32)),
    ("access time", |v| v.inode(|i| i.times[3] ^= 1 << 31)),
    ("internal flags", |v| v.inode(|i| i.flags ^= 1 << 40)),
    ("links", |v| v.inode(|i| i.links = i.links.wrapping_neg().wrapping_add(1))),
    ("BSD flags", |v| v.inode(|i| i.bsd ^= 1)),
    ("owner", |v| v.inode(|i| i.owner ^= 1 << 31)),
    ("group", |v| v.inode(|i| i.group ^= 1)),
    ("mode", |v| v.inode(|i| i.mode ^= 1)),
    ("inode's name", |v| v.inode_name()),
    ("inode's name gone", |v| v.field_gone(NAME_FIELD)),
    ("size", |v| v.stream_field(0)),
    ("allocated size", |v| v.stream_field(8)),
    ("data stream gone", |v| v.field_gone(STREAM_FIELD)),
    ("packed", |v| v.inode(|i| i.bsd ^= COMPRESSED)),
    ("byte of a file", |v| v.byte()),
    ("entry's name", |v| v.entry_name()),
    ("entry's target", |v| v.target()),
    ("entry's date", |v| v.entry(|e| e.date ^= 1)),
    ("entry's kind", |v| v.entry(|e| e.flags ^= 2)),
    ("order of entries", |v| v.entries(swap)),
    ("entry left out", |v| v.entries(|list, i| drop(list.remove(i)))),
    ("entry twice", |v| v.entries(|list, i| list.insert(i, list[i].clone()))),
    ("attribute's name", |v| v.attribute(|a| changed_name(&mut a.name))),
    ("attribute's flags", |v| v.attribute(|a| a.flags ^= 0x100)),
    ("attribute's bytes", |v| v.embedded_byte()),
    ("attribute's stream", |v| v.streamed_byte()),
    ("attribute's form", |v| v.form()),
    ("attribute's object", |v| v.object()),
    ("attribute left out", |v| v.attributes(|list, i| drop(list.remove(i)))),
    ("order of attributes", |v| v.attributes(swap)),
    ("label", |v| v.label()),
    ("case", |v| v.rule(|c| c.case_insensitive = !c.case_insensitive)),
    ("normalization", |v| v.rule(|c| c.normalization_insensitive = !c.normalization_insensitive)),
];

pub fn names() -> impl Iterator<Item = &'static str> {
    ALL.iter().map(|&(name, _)| name)
}

/// The contents with one thing changed, and its name; nothing where the volume has no such thing.
pub fn drawn(c: &Contents, r: &mut Random) -> Option<(&'static str, Contents)> {
    let (name, change) = r.pick(&ALL);
    let mut v = Volume { c: c.clone(), reached: reached(c), r };
    change(&mut v)?;
    Some((name, v.c))
}

/// Another text, in as many bytes.
fn changed_name(name: &mut Vec<u8>) {
    match name.first_mut() {
        Some(b) => *b = if *b == b'q' { b'w' } else { b'q' },
        None => name.push(b'q'),
    }
}

#[allow(clippy::ptr_arg)] // one of the changes of a list
fn swap<T>(list: &mut Vec<T>, i: usize) {
    let next = (i + 1) % list.len();
    list.swap(i, next);
}

impl Volume<'_> {
    fn some(&mut self, wanted: impl Fn(&File) -> bool) -> Option<&mut File> {
        let found: Vec<usize> = self.reached.iter().copied().filter(|&i| wanted(&self.c.files[i])).collect();
        let at = *found.get(self.r.place(found.len().max(1)))?;
        Some(&mut self.c.files[at])
    }

    fn inode(&mut self, change: fn(&mut Inode)) -> Option<()> {
        self.some(|_| true).map(|f| change(&mut f.inode))
    }

    fn inode_name(&mut self) -> Option<()> {
        let f = self.some(|_| true)?;
        let mut data = f.inode.name().unwrap_or_default().into_bytes();
        changed_name(&mut data);
        f.inode.fields.retain(|f| f.kind != NAME_FIELD);
        f.inode.fields.push(Field { kind: NAME_FIELD, flags: 2, data });
        Some(())
    }

    fn field_gone(&mut self, kind: u8) -> Option<()> {
        let f = self.some(|f| f.inode.last(kind).is_some())?;
        f.inode.fields.retain(|f| f.kind != kind);
        Some(())
    }

    /// A number of the data stream's field.
    fn stream_field(&mut self, at: usize) -> Option<()> {
        let f = self.some(|f| f.inode.last(STREAM_FIELD).is_some())?;
        let field = f.inode.fields.iter_mut().rev().find(|f| f.kind == STREAM_FIELD)?;
        field.data[at] ^= 1;
        Some(())
    }

    fn byte(&mut self) -> Option<()> {
        let stored = |f: &File| !f.inode.is_compressed() && f.inode.stream().is_some_and(|s| s.0 > 0);
        let (id, size) = self.some(stored).map(|f| (f.inode.private, f.inode.stream().unwrap_or_default().0))?;
        self.stream_byte(id, size)
    }

    fn stream_byte(&mut self, id: u64, size: u64) -> Option<()> {
        let extents = &mut self.c.streams.iter_mut().find(|s| s.id == id)?.extents;
        let mut within: Vec<&mut Extent> = extents.iter_mut().filter(|e| e.logical < size && e.length > 0).collect();
        let at = self.r.place(within.len().max(1));
        let e = within.get_mut(at)?;
        let seen = e.length.min(size - e.logical);
        let Source::Bytes(b) = &mut e.source else { return None };
        b[self.r.below(seen) as usize] ^= 1 << self.r.below(8);
        Some(())
    }

    fn entry(&mut self, change: fn(&mut Entry)) -> Option<()> {
        self.entries_of(1).map(|(list, i)| change(&mut list[i]))
    }

    fn entry_name(&mut self) -> Option<()> {
        self.entry(|e| changed_name(&mut e.name))
    }

    /// An entry that leads to another file, which has no entries itself.
    fn target(&mut self) -> Option<()> {
        let id = self.some(|f| f.entries.is_empty())?.inode.id;
        self.entries_of(1).map(|(list, i)| list[i].id = id)
    }

    /// The entries of some directory that has as many, and a place among them.
    fn entries_of(&mut self, least: usize) -> Option<(&mut Vec<Entry>, usize)> {
        let place = self.r.draw() as usize;
        let list = &mut self.some(|f| f.entries.len() >= least)?.entries;
        let i = place % list.len();
        Some((list, i))
    }

    fn entries(&mut self, change: fn(&mut Vec<Entry>, usize)) -> Option<()> {
        self.entries_of(1).map(|(list, i)| change(list, i))
    }

    fn attributes(&mut self, change: fn(&mut Vec<Attribute>, usize)) -> Option<()> {
        let place = self.r.draw() as usize;
        let list = &mut self.some(|f| !f.attributes.is_empty())?.attributes;
        let i = place % list.len();
        change(list, i);
        Some(())
    }

    fn attribute(&mut self, change: fn(&mut Attribute)) -> Option<()> {
        self.attribute_with(|_| true).map(change)
    }

    fn attribute_with(&mut self, wanted: fn(&Attribute) -> bool) -> Option<&mut Attribute> {
        let place = self.r.draw() as usize;
        let mut found: Vec<&mut Attribute> =
            self.some(|f| f.attributes.iter().any(wanted))?.attributes.iter_mut().filter(|a| wanted(a)).collect();
        let i = place % found.len();
        Some(found.swap_remove(i))
    }

    fn embedded_byte(&mut self) -> Option<()> {
        let a = self.attribute_with(|a| matches!(&a.data, Data::Embedded(b) if !b.is_empty()))?;
        let Data::Embedded(b) = &mut a.data else { return None };
        *b.last_mut()? ^= 1;
        Some(())
    }

    fn streamed_byte(&mut self) -> Option<()> {
        let a = self.attribute_with(|a| matches!(a.data, Data::Stream { size, .. } if size > 0))?;
        let Data::Stream { id, size } = a.data else { return None };
        self.stream_byte(id, size)
    }

    fn fresh_id(&self) -> u64 {
        let ids = self.c.streams.iter().map(|s| s.id).chain(self.c.files.iter().map(|f| f.inode.id));
        ids.max().unwrap_or(0) + 1
    }

    /// The same bytes, no longer in the record itself.
    fn form(&mut self) -> Option<()> {
        let id = self.fresh_id();
        let a = self.attribute_with(|a| matches!(a.data, Data::Embedded(_)))?;
        let Data::Embedded(b) = a.data.clone() else { return None };
        let length = b.len() as u64;
        (a.flags, a.data) = (a.flags | STREAM_FLAG, Data::Stream { id, size: length });
        let extents = vec![Extent { logical: 0, length, source: Source::Bytes(b) }];
        self.c.streams.push(Stream { id, extents });
        Some(())
    }

    /// The same bytes in a stream of another number.
    fn object(&mut self) -> Option<()> {
        let fresh = self.fresh_id();
        let a = self.attribute_with(|a| matches!(a.data, Data::Stream { .. }))?;
        let Data::Stream { id, .. } = &mut a.data else { return None };
        let old = std::mem::replace(id, fresh);
        let extents = self.c.stream(old).to_vec();
        self.c.streams.push(Stream { id: fresh, extents });
        Some(())
    }

    fn label(&mut self) -> Option<()> {
        changed_name(&mut self.c.label);
        Some(())
    }

    /// Keys go by the rule.
    fn rule(&mut self, change: fn(&mut Contents)) -> Option<()> {
        change(&mut self.c);
        self.c.form_keys();
        Some(())
    }
}
