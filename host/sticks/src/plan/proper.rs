//! Contents as other readers want them, who hold a stick to more of the reference than the readers here.

use std::collections::{BTreeMap, BTreeSet};

use crate::contents::{
    text, Attribute, Contents, Data, Entry, Extent, Field, File, Inode, Key, Source, Stream, BRIEF_FLAG, COMPRESSED,
    LINK_ATTRIBUTE, NAME_FIELD, STREAM_FIELD,
};
use crate::sums::name_hash;

const ROOT: u64 = 2;
const DIRECTORY: u16 = 4;
const KIND: u16 = 0xf;
/// An extent's length is a multiple of it.
const BLOCK: usize = 4096;
/// Blocks of an extent.
const RUN: usize = 3;

/// Names of one line of text each, no two alike in a directory, under hashed keys in their order, on a volume that has
/// such keys; inodes with the fields that a Mac writes, named as the entry that leads to them; extents of whole blocks;
/// no directory entered twice, nothing compressed, no ghosts.
pub fn contents(c: &Contents) -> Contents {
    let mut entered = BTreeSet::from([ROOT]);
    let mut files: Vec<File> = c.files.iter().map(|f| file(f, c.case_insensitive, &mut entered)).collect();
    let names: BTreeMap<u64, Vec<u8>> = files
        .iter()
        .flat_map(|f| &f.entries)
        .map(|e| (e.id, e.name.clone()))
        .chain([(ROOT, b"root".to_vec())])
        .collect();
    for f in &mut files {
        let name = names.get(&f.inode.id).map_or(&b"lost"[..], Vec::as_slice);
        let field = Field { kind: NAME_FIELD, flags: 2, data: [name, b"\0"].concat() };
        f.inode.fields.insert(0, field);
    }
    let streams = sizes(&files).into_iter().map(|(id, size)| stream(id, c.bytes(id, size))).collect();
    // Where case counts, a Mac makes volumes that are normalization-insensitive.
    let normalization_insensitive = c.normalization_insensitive || !c.case_insensitive;
    let label = clean(&c.label, 0);
    Contents { label, files, streams, others: Vec::new(), normalization_insensitive, ..c.clone() }
}

fn file(f: &File, insensitive: bool, entered: &mut BTreeSet<u64>) -> File {
    let mut names = BTreeSet::new();
    let mut entries: Vec<Entry> = Vec::new();
    for e in &f.entries {
        let name = clean(&e.name, e.id);
        let again = e.flags & KIND == DIRECTORY && !entered.insert(e.id);
        if !again && names.insert(name.to_ascii_lowercase()) {
            entries.push(Entry { key: Key::Hashed, name, flags: e.flags & KIND, ..e.clone() });
        }
    }
    entries.sort_by_cached_key(|e| (name_hash(&e.name, insensitive), e.name.clone()));
    let mut inode = Inode { short: 0, fields: Vec::new(), bsd: f.inode.bsd & !COMPRESSED, ..f.inode.clone() };
    if let Some((size, allocated)) = f.inode.stream() {
        let data = [size, allocated, 0, 0, 0].map(u64::to_le_bytes).concat();
        inode.fields.push(Field { kind: STREAM_FIELD, flags: 0x20, data });
    }
    let mut attributes: Vec<Attribute> = f.attributes.iter().map(attribute).collect();
    attributes.retain(|a| a.name != b"com.apple.decmpfs");
    attributes.sort_by(|a, b| a.name.cmp(&b.name));
    attributes.dedup_by(|a, b| a.name == b.name);
    File { inode, attributes, entries }
}

fn attribute(a: &Attribute) -> Attribute {
    let mut a = Attribute { name: clean(&a.name, 0), flags: a.flags & !BRIEF_FLAG, ..a.clone() };
    if a.name == LINK_ATTRIBUTE {
        (a.flags, a.data) = (2, Data::Embedded(b"to/some/place\0".to_vec()));
    }
    a
}

/// Each stream that is asked for, with its size, or the largest of them.
fn sizes(files: &[File]) -> BTreeMap<u64, u64> {
    let mut out: BTreeMap<u64, u64> = BTreeMap::new();
    for f in files {
        let own = f.inode.stream().map(|s| (f.inode.private, s.0));
        let attributes = f.attributes.iter().filter_map(|a| match a.data {
            Data::Stream { id, size } => Some((id, size)),
            Data::Embedded(_) => None,
        });
        for (id, size) in own.into_iter().chain(attributes) {
            let most = out.entry(id).or_default();
            *most = size.max(*most);
        }
    }
    out
}

fn stream(id: u64, bytes: Vec<u8>) -> Stream {
    let extent = |(i, part): (usize, &[u8])| {
        let length = part.len().next_multiple_of(BLOCK) as u64;
        Extent { logical: (i * RUN * BLOCK) as u64, length, source: Source::Bytes(part.to_vec()) }
    };
    Stream { id, extents: bytes.chunks(RUN * BLOCK).enumerate().map(extent).collect() }
}

/// The name's text, or one by the id where others would not print it as it is.
fn clean(name: &[u8], id: u64) -> Vec<u8> {
    let text = text(name);
    let odd = |c: char| c.is_control() || matches!(c, '/' | '\\' | '\u{fffd}');
    if text.is_empty() || text.contains(odd) || text.len() > 255 {
        return format!("name-{id}").into_bytes();
    }
    text.into_bytes()
}
