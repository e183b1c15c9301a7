//! Small sticks, and changes of their blocks.

use sticks::block::{get16, get32, seal, BTREE, BTREE_NODE, CHECKPOINT_MAP, FS, FSTREE, NX_SUPERBLOCK, OMAP};
use sticks::contents::{
    Attribute, Contents, Data, Entry, Extent, Field, File, Inode, Key, Source, Stream, STREAM_FIELD, STREAM_FLAG,
};
use sticks::{make, Plan};

pub const ROOT: u64 = 2;
pub const FILE: u64 = 100;
pub const BLOCK: usize = 4096;

/// The root of every volume here, as its line has it.
pub const ROOT_LINE: &str = "(node 2 1 2 0 0 0 0 0 0 0 0 0 16877 - -\n";

pub fn inode(id: u64) -> Inode {
    Inode { id, parent: if id == ROOT { 1 } else { ROOT }, private: id, mode: 16877, ..Inode::default() }
}

pub fn file(id: u64) -> File {
    File { inode: inode(id), attributes: Vec::new(), entries: Vec::new() }
}

pub fn entry(key: Key, name: impl AsRef<[u8]>, id: u64) -> Entry {
    Entry { key, name: name.as_ref().to_vec(), id, date: 3, flags: 8 }
}

/// A directory with entries of these names and ids.
pub fn directory(id: u64, entries: &[(&str, u64)]) -> File {
    let entries = entries.iter().map(|(name, id)| entry(Key::Hashed, name, *id)).collect();
    File { entries, ..file(id) }
}

/// A volume "A", case-insensitive.
pub fn contents(files: Vec<File>) -> Contents {
    Contents {
        label: b"A".to_vec(),
        case_insensitive: true,
        normalization_insensitive: false,
        encrypted: false,
        sealed: false,
        files,
        streams: Vec::new(),
        others: Vec::new(),
        regular: true,
    }
}

pub fn plan(c: Contents) -> Plan {
    Plan::with_contents(c, 5)
}

pub fn image(c: Contents) -> Vec<u8> {
    make(plan(c)).image
}

/// A stick with an empty root.
pub fn empty() -> Vec<u8> {
    image(contents(vec![file(ROOT)]))
}

pub fn stored(logical: u64, bytes: &[u8]) -> Extent {
    let mut data = bytes.to_vec();
    data.resize(bytes.len().next_multiple_of(BLOCK), b'!');
    Extent { logical, length: bytes.len() as u64, source: Source::Bytes(data) }
}

pub fn at_block(logical: u64, length: u64, block: u64) -> Extent {
    Extent { logical, length, source: Source::Block(block) }
}

fn stream_field(size: u64) -> Field {
    Field { kind: STREAM_FIELD, flags: 0x20, data: [size, 9000, 0, 0, 0].map(u64::to_le_bytes).concat() }
}

/// The file `FILE` of that size in these extents.
pub fn sized(size: u64, extents: Vec<Extent>) -> Contents {
    let mut only = file(FILE);
    only.inode.fields.push(stream_field(size));
    let mut c = contents(vec![directory(ROOT, &[("data", FILE)]), only]);
    c.streams.push(Stream { id: FILE, extents });
    c
}

pub fn embedded(name: &str, bytes: &[u8]) -> Attribute {
    Attribute { name: name.into(), flags: 2, data: Data::Embedded(bytes.to_vec()) }
}

pub fn streamed(name: &str, id: u64, size: u64) -> Attribute {
    Attribute { name: name.into(), flags: STREAM_FLAG, data: Data::Stream { id, size } }
}

pub type Is = fn(&[u8]) -> bool;

fn kind(b: &[u8]) -> u32 {
    get32(b, 24) & 0xffff
}

pub const SUPERBLOCK: Is = |b| kind(b) == NX_SUPERBLOCK;
pub const CHECKPOINT: Is = |b| kind(b) == CHECKPOINT_MAP;
pub const OBJECT_MAP: Is = |b| kind(b) == OMAP;
pub const VOLUME: Is = |b| kind(b) == FS;
/// The root of a volume's tree, and its other nodes.
pub const TREE_ROOT: Is = |b| kind(b) == BTREE && get32(b, 28) == FSTREE && get16(b, 32) & 1 == 1;
pub const TREE_NODE: Is = |b| kind(b) == BTREE_NODE && get32(b, 28) == FSTREE;

/// The root of an object map's tree.
pub const MAP_ROOT: Is = |b| kind(b) == BTREE && get32(b, 28) == OMAP && get16(b, 32) & 1 == 1;

/// With the checksum of each block of a kind wrong.
pub fn unsealed(image: &[u8], is: Is) -> Vec<u8> {
    let mut out = image.to_vec();
    out.chunks_exact_mut(BLOCK).skip(1).filter(|b| is(b)).for_each(|b| b[0] ^= 1);
    out
}

/// With each block of a kind changed, their checksums right again. Block 0 is left alone.
pub fn changed(image: &[u8], is: Is, change: impl Fn(&mut [u8])) -> Vec<u8> {
    let mut out = image.to_vec();
    let mut any = false;
    for b in out.chunks_exact_mut(BLOCK).skip(1).filter(|b| is(b)) {
        change(b);
        seal(b);
        any = true;
    }
    assert!(any, "no such block");
    out
}

/// Where the value of a record stands in a root as it is made here.
pub fn value_at(b: &[u8], record: usize) -> usize {
    BLOCK - 40 - usize::from(get16(b, 56 + 8 * record + 4))
}

/// With block 0 changed, its checksum left as it was.
pub fn with_zero(image: &[u8], change: impl Fn(&mut [u8])) -> Vec<u8> {
    let mut out = image.to_vec();
    change(&mut out);
    out
}

pub fn cut(image: &[u8], n: usize) -> Vec<u8> {
    image[..n].to_vec()
}
