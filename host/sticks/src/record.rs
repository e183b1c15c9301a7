//! Keys and values of a file-system tree.

use crate::contents::{Attribute, Contents, Data, Entry, Extent, Field, Inode, Key, Source, BRIEF_FLAG};
use crate::disk::Disk;
use crate::node::Record;
use crate::sums::name_hash;

pub const INODE: u64 = 3;
pub const XATTR: u64 = 4;
pub const FILE_EXTENT: u64 = 8;
pub const DIR_REC: u64 = 9;

pub const ID_MASK: u64 = 0x0fff_ffff_ffff_ffff;

pub fn head(id: u64, kind: u64) -> Vec<u8> {
    (id & ID_MASK | kind << 60).to_le_bytes().to_vec()
}

fn join(parts: &[&[u8]]) -> Vec<u8> {
    parts.concat()
}

pub fn inode(i: &Inode) -> Record {
    let mut v = Vec::new();
    for n in [i.parent, i.private, i.times[0], i.times[1], i.times[2], i.times[3], i.flags] {
        v.extend(n.to_le_bytes());
    }
    v.extend(i.links.to_le_bytes());
    v.extend([0; 8]); // protection class, write generation
    for n in [i.bsd, i.owner, i.group] {
        v.extend(n.to_le_bytes());
    }
    v.extend(i.mode.to_le_bytes());
    v.extend([0; 10]); // padding, uncompressed size
    if i.fields.is_empty() {
        v.truncate(v.len() - i.short);
    } else {
        v.extend(fields(&i.fields));
    }
    Record::new(head(i.id, INODE), v)
}

/// Count, sizes, then each field's bytes up to the next multiple of 8. The last field, if its flags are odd,
/// ends where its bytes do.
fn fields(list: &[Field]) -> Vec<u8> {
    let used: usize = list.iter().map(|f| f.data.len().next_multiple_of(8)).sum();
    let mut v = join(&[&(list.len() as u16).to_le_bytes(), &(used as u16).to_le_bytes()]);
    for f in list {
        v.extend([f.kind, f.flags]);
        v.extend((f.data.len() as u16).to_le_bytes());
    }
    for (i, f) in list.iter().enumerate() {
        v.extend(&f.data);
        if i + 1 < list.len() || f.flags & 1 == 0 {
            v.resize(v.len() + f.data.len().next_multiple_of(8) - f.data.len(), 0);
        }
    }
    v
}

pub fn entry(dir: u64, e: &Entry, insensitive: bool) -> Record {
    let mut k = head(dir, DIR_REC);
    let zero = usize::from(matches!(e.key, Key::Hashed | Key::Plain | Key::Wrong));
    let length = e.name.len() + zero + if e.key == Key::Wrong { 3 } else { 0 };
    match e.key {
        Key::Raw => {}
        Key::Plain | Key::BarePlain => k.extend((length as u16).to_le_bytes()),
        _ => k.extend((length as u32 | name_hash(&e.name, insensitive) << 10).to_le_bytes()),
    }
    k.extend(&e.name);
    k.extend(vec![0; zero]);
    Record::new(k, join(&[&e.id.to_le_bytes(), &e.date.to_le_bytes(), &e.flags.to_le_bytes()]))
}

pub fn attribute(id: u64, a: &Attribute) -> Record {
    let length = a.name.len() as u16 + 1;
    let key = join(&[&head(id, XATTR), &length.to_le_bytes(), &a.name, &[0]]);
    let mut data = match &a.data {
        Data::Embedded(d) => d.clone(),
        // Object id, then a data stream of size, allocated size, crypto id and two counts.
        Data::Stream { id, size } => [*id, *size, *size & !4095, 0, 0, 0].map(u64::to_le_bytes).concat(),
    };
    if a.flags & BRIEF_FLAG != 0 {
        data.truncate(16);
    }
    Record::new(key, join(&[&a.flags.to_le_bytes(), &(data.len() as u16).to_le_bytes(), &data]))
}

/// Writes the extent's bytes, if it has any, to blocks of their own.
pub fn extent(stream: u64, e: &Extent, disk: &mut Disk) -> Record {
    let block = match &e.source {
        Source::Hole => 0,
        Source::Block(b) => *b,
        Source::Bytes(data) => {
            let first = disk.take(data.len().div_ceil(disk.block_size) as u64);
            disk.put(first, data);
            first
        }
    };
    let key = join(&[&head(stream, FILE_EXTENT), &e.logical.to_le_bytes()]);
    Record::new(key, [e.length, block, 0].map(u64::to_le_bytes).concat())
}

fn rank(r: &Record) -> (u64, u64) {
    let n = u64::from_le_bytes(r.key[..8].try_into().expect("a key's head"));
    (n & ID_MASK, n >> 60)
}

/// All records of a volume, by object and kind; within those in the order of the lists.
pub fn all(c: &Contents, disk: &mut Disk) -> Vec<Record> {
    let mut out = c.others.clone();
    for f in &c.files {
        let id = f.inode.id;
        out.push(inode(&f.inode));
        out.extend(f.attributes.iter().map(|a| attribute(id, a)));
        out.extend(f.entries.iter().map(|e| entry(id, e, c.case_insensitive)));
    }
    for s in &c.streams {
        out.extend(s.extents.iter().map(|e| extent(s.id, e, disk)));
    }
    out.sort_by_key(rank);
    out
}
