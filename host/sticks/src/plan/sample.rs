//! A small volume to try a reader on: two directories, a file with a hole, a symbolic link, attributes, an accented name.

use crate::contents::{
    Attribute, Contents, Data, Entry, Extent, Field, File, Inode, Key, Source, Stream, LINK_ATTRIBUTE, NAME_FIELD,
    STREAM_FIELD, STREAM_FLAG,
};
use crate::sums::name_hash;

const ROOT: u64 = 2;
const DIRECTORY: u16 = 4;
const REGULAR: u16 = 8;
const LINK: u16 = 10;
const BLOCK: usize = 4096;
/// 2026-11-15 06:00:00 UTC, in nanoseconds.
const TIME: u64 = 1_794_722_400_000_000_000;

const LOG: &[u8] = b"06:00 north gate, closed\n06:20 boiler room, 71 C\n06:45 roof, all well\n";
const NOTE: &[u8] = "The café opens at seven.\n".as_bytes();
const TARGET: &[u8] = b"rounds/morning.log\0";

/// The volume's contents, under the keys and with the fields that a Mac writes.
pub fn contents() -> Contents {
    let mut m = Maker { files: Vec::new(), streams: Vec::new() };
    m.add(ROOT, "root", 1, DIRECTORY);
    m.add(16, "rounds", ROOT, DIRECTORY);
    m.add(17, "notes", ROOT, DIRECTORY);
    m.add(18, "latest.log", ROOT, LINK).attributes.push(embedded(LINK_ATTRIBUTE, TARGET));
    m.add(19, "morning.log", 16, REGULAR).attributes.push(embedded(b"recorder", b"watch 7"));
    m.bytes(19, LOG);
    m.trace(19, 22);
    m.add(20, "meter.raw", 16, REGULAR);
    m.with_hole(20);
    m.add(21, "café.txt", 17, REGULAR);
    m.bytes(21, NOTE);
    m.enter_all();
    Contents {
        label: b"Rounds".to_vec(),
        case_insensitive: true,
        normalization_insensitive: false,
        encrypted: false,
        sealed: false,
        files: m.files,
        streams: m.streams,
        others: Vec::new(),
        regular: true,
    }
}

fn embedded(name: &[u8], data: &[u8]) -> Attribute {
    Attribute { name: name.to_vec(), flags: 2, data: Data::Embedded(data.to_vec()) }
}

/// An extent of whole blocks.
fn extent(block: usize, bytes: &[u8]) -> Extent {
    let length = bytes.len().next_multiple_of(BLOCK) as u64;
    Extent { logical: (block * BLOCK) as u64, length, source: Source::Bytes(bytes.to_vec()) }
}

struct Maker {
    files: Vec<File>,
    streams: Vec<Stream>,
}

impl Maker {
    fn add(&mut self, id: u64, name: &str, parent: u64, kind: u16) -> &mut File {
        let data = [name.as_bytes(), b"\0"].concat();
        let inode = Inode {
            id,
            parent,
            private: id,
            times: [TIME; 4],
            links: if kind == DIRECTORY { 0 } else { 1 },
            owner: 501,
            group: 20,
            mode: kind << 12 | if kind == REGULAR { 0o644 } else { 0o755 },
            fields: vec![Field { kind: NAME_FIELD, flags: 2, data }],
            ..Inode::default()
        };
        self.files.push(File { inode, attributes: Vec::new(), entries: Vec::new() });
        self.file(id)
    }

    fn file(&mut self, id: u64) -> &mut File {
        self.files.iter_mut().find(|f| f.inode.id == id).expect("a file")
    }

    fn data(&mut self, id: u64, size: usize, extents: Vec<Extent>) {
        let allocated = extents.iter().filter(|e| !matches!(e.source, Source::Hole)).map(|e| e.length).sum();
        let data = [size as u64, allocated, 0, 0, 0].map(u64::to_le_bytes).concat();
        self.file(id).inode.fields.push(Field { kind: STREAM_FIELD, flags: 0x20, data });
        self.streams.push(Stream { id, extents });
    }

    fn bytes(&mut self, id: u64, bytes: &[u8]) {
        self.data(id, bytes.len(), vec![extent(0, bytes)]);
    }

    /// A block of text, two that are a hole, and a line.
    fn with_hole(&mut self, id: u64) {
        let first: Vec<u8> = b"meter 0042\n".iter().copied().cycle().take(BLOCK).collect();
        let hole = Extent { logical: BLOCK as u64, length: 2 * BLOCK as u64, source: Source::Hole };
        let last = b"meter 0043\n";
        self.data(id, 3 * BLOCK + last.len(), vec![extent(0, &first), hole, extent(3, last)]);
    }

    /// An attribute that is a stream of its own.
    fn trace(&mut self, file: u64, id: u64) {
        let bytes: Vec<u8> = (0..BLOCK + 904).map(|i| (i % 251) as u8).collect();
        let data = Data::Stream { id, size: bytes.len() as u64 };
        self.file(file).attributes.push(Attribute { name: b"trace".to_vec(), flags: STREAM_FLAG, data });
        self.streams.push(Stream { id, extents: vec![extent(0, &bytes)] });
    }

    /// An entry for each file in its parent, in the order of the keys.
    fn enter_all(&mut self) {
        for i in 0..self.files.len() {
            let Inode { id, parent, mode, .. } = self.files[i].inode;
            let name = self.files[i].inode.name().expect("a name").into_bytes();
            let Some(dir) = self.files.iter_mut().find(|f| f.inode.id == parent) else { continue };
            dir.entries.push(Entry { key: Key::Hashed, name, id, date: TIME, flags: mode >> 12 });
            dir.entries.sort_by_cached_key(|e| (name_hash(&e.name, true), e.name.clone()));
            dir.inode.links = dir.entries.len() as i32;
        }
    }
}
