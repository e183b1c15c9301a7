//! Volumes for timings and edges: wide directories, deep ones, and a file in few or many extents.

use crate::contents::{
    Attribute, Contents, Data, Entry, Extent, Field, File, Inode, Key, Source, Stream, STREAM_FIELD,
};
use crate::random::Random;
use crate::sums::name_hash;
use crate::tree::{Shape, Sizes};

const ROOT: u64 = 2;
const FILE: u64 = 100;
const DIRECTORY: u16 = 4;
const REGULAR: u16 = 8;
const EMBEDDED: u16 = 2;

/// Full nodes of plain form.
pub fn dense(sizes: Sizes, r: &mut Random) -> Shape {
    Shape {
        leaf: 4000,
        index: 4000,
        extra: 0,
        floor: 0,
        high_leaves: false,
        hollow: false,
        sizes,
        loose: false,
        typed: true,
        random: r.fork(),
    }
}

fn contents(files: Vec<File>, streams: Vec<Stream>) -> Contents {
    Contents {
        label: b"large".to_vec(),
        case_insensitive: true,
        normalization_insensitive: true,
        encrypted: false,
        sealed: false,
        files,
        streams,
        others: Vec::new(),
        regular: true,
    }
}

fn inode(id: u64, kind: u16, fields: Vec<Field>) -> Inode {
    Inode { id, parent: ROOT, private: id, links: 1, mode: kind << 12 | 0o755, fields, ..Inode::default() }
}

fn entry(name: String, id: u64, kind: u16) -> Entry {
    Entry { key: Key::Hashed, name: name.into_bytes(), id, date: 0, flags: kind }
}

/// Directories of `n` entries, one in the other: `next/next/last` leads through three to a file.
pub fn directories(n: u64) -> Contents {
    let mut files = vec![File { inode: inode(FILE, REGULAR, Vec::new()), attributes: Vec::new(), entries: Vec::new() }];
    for (id, name, to, kind) in
        [(ROOT, "next", 16, DIRECTORY), (16, "next", 17, DIRECTORY), (17, "last", FILE, REGULAR)]
    {
        let mut entries: Vec<Entry> = (1..n).map(|i| entry(format!("entry-{i:06}"), FILE, REGULAR)).collect();
        entries.push(entry(name.into(), to, kind));
        entries.sort_by_cached_key(|e| (name_hash(&e.name, true), e.name.clone()));
        files.push(File { inode: inode(id, DIRECTORY, Vec::new()), attributes: Vec::new(), entries });
    }
    contents(files, Vec::new())
}

/// Directories one in the other, `depth` below the root, each entered `times` over.
pub fn chain(depth: u64, times: u64) -> Contents {
    let directory = |i: u64| {
        let id = if i == 0 { ROOT } else { 15 + i };
        let times = if i < depth { times } else { 0 };
        let entries = (0..times).map(|k| entry(format!("next-{k}"), 16 + i, DIRECTORY)).collect();
        File { inode: inode(id, DIRECTORY, Vec::new()), attributes: Vec::new(), entries }
    };
    contents((0..=depth).map(directory).collect(), Vec::new())
}

/// A volume of `n` entries: directories one in the other, at most `depth` below the root, and empty files spread over
/// them, each with an inode of its own.
pub fn spread(n: u64, depth: u64) -> Contents {
    let depth = depth.min(n / 2);
    let id = |i: u64| if i == 0 { ROOT } else { 15 + i };
    let empty =
        |id: u64, kind: u16| File { inode: inode(id, kind, Vec::new()), attributes: Vec::new(), entries: Vec::new() };
    let mut files: Vec<File> = (0..=depth).map(|i| empty(id(i), DIRECTORY)).collect();
    for i in 0..depth {
        files[i as usize].entries.push(entry("next".into(), id(i + 1), DIRECTORY));
    }
    for k in 0..n - depth {
        let file = id(depth + 1 + k);
        files[(k % (depth + 1)) as usize].entries.push(entry(format!("entry-{k:06}"), file, REGULAR));
        files.push(empty(file, REGULAR));
    }
    for f in &mut files {
        f.entries.sort_by_cached_key(|e| (name_hash(&e.name, true), e.name.clone()));
    }
    contents(files, Vec::new())
}

/// A flat volume of `n` files, each with two attributes that hold their own bytes.
pub fn attributed(n: u64) -> Contents {
    let attribute = |name: &str, length: usize| Attribute {
        name: name.into(),
        flags: EMBEDDED,
        data: Data::Embedded((0..length).map(|i| i as u8).collect()),
    };
    let mut all = spread(n, 0);
    for f in all.files.iter_mut().skip(1) {
        f.attributes = vec![attribute("com.apple.FinderInfo", 32), attribute("watch.round", 60)];
    }
    all
}

/// A file `data` of `size` bytes in as many extents.
pub fn file(size: u64, extents: u64, block_size: usize, r: &mut Random) -> Contents {
    let length = size.div_ceil(extents);
    let one = |i: u64, r: &mut Random| {
        let data = r.bytes((length as usize).next_multiple_of(block_size));
        Extent { logical: i * length, length, source: Source::Bytes(data) }
    };
    let extents = (0..extents).map(|i| one(i, r)).collect();
    let stream = [size, size, 0, 0, 0].map(u64::to_le_bytes).concat();
    let field = Field { kind: STREAM_FIELD, flags: 0x20, data: stream };
    let root = File {
        inode: inode(ROOT, DIRECTORY, Vec::new()),
        attributes: Vec::new(),
        entries: vec![entry("data".into(), FILE, REGULAR)],
    };
    let file = File { inode: inode(FILE, REGULAR, vec![field]), attributes: Vec::new(), entries: Vec::new() };
    contents(vec![root, file], vec![Stream { id: FILE, extents }])
}
