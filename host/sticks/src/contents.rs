//! What a volume holds, and how it must read.

use crate::node::Record;

pub const NAME_FIELD: u8 = 4;
pub const STREAM_FIELD: u8 = 8;
pub const COMPRESSED: u32 = 0x20;
pub const STREAM_FLAG: u16 = 0x1;
/// A stream's form ends after the size; to readers the flag says nothing.
pub const BRIEF_FLAG: u16 = 0x40;
pub const LINK_ATTRIBUTE: &[u8] = b"com.apple.fs.symlink";

/// An inode's extra field.
#[derive(Clone, Debug)]
pub struct Field {
    pub kind: u8,
    pub flags: u8,
    pub data: Vec<u8>,
}

#[derive(Clone, Debug, Default)]
pub struct Inode {
    pub id: u64,
    pub parent: u64,
    pub private: u64,
    /// Created, modified, changed, accessed.
    pub times: [u64; 4],
    pub flags: u64,
    pub links: i32,
    pub bsd: u32,
    pub owner: u32,
    pub group: u32,
    pub mode: u16,
    pub fields: Vec<Field>,
    /// So many bytes are left off the value's end where there are no fields.
    pub short: usize,
}

/// How a directory record's key holds the name.
#[derive(Clone, Copy, Debug, PartialEq, Eq)]
pub enum Key {
    Hashed,
    Plain,
    /// Hashed, without the zero byte at the end.
    Bare,
    /// Plain, without the zero byte at the end.
    BarePlain,
    /// Of a length that fits neither form.
    Wrong,
    /// The name is all that follows the head of the key, a count included.
    Raw,
}

impl Key {
    /// The same in the other form, unless it has neither.
    pub fn other(self) -> Key {
        match self {
            Key::Hashed => Key::Plain,
            Key::Plain => Key::Hashed,
            Key::Bare => Key::BarePlain,
            Key::BarePlain => Key::Bare,
            Key::Wrong | Key::Raw => self,
        }
    }

    /// The same in the form that a volume's keys have.
    pub fn formed(self, hashed: bool) -> Key {
        match self {
            Key::Plain | Key::BarePlain if hashed => self.other(),
            Key::Hashed | Key::Bare if !hashed => self.other(),
            _ => self,
        }
    }

    /// How many bytes the key of a name has.
    pub fn length(self, name: &[u8]) -> usize {
        let beside = match self {
            Key::Hashed | Key::Wrong => 13,
            Key::Bare => 12,
            Key::Plain => 11,
            Key::BarePlain => 10,
            Key::Raw => 8,
        };
        beside + name.len()
    }
}

#[derive(Clone, Debug)]
pub struct Entry {
    pub key: Key,
    pub name: Vec<u8>,
    pub id: u64,
    pub date: u64,
    /// The low 4 bits are the kind.
    pub flags: u16,
}

#[derive(Clone, Debug)]
pub enum Data {
    Embedded(Vec<u8>),
    Stream { id: u64, size: u64 },
}

#[derive(Clone, Debug)]
pub struct Attribute {
    pub name: Vec<u8>,
    pub flags: u16,
    pub data: Data,
}

#[derive(Clone, Debug)]
pub enum Source {
    /// Physical block 0.
    Hole,
    /// These bytes, in blocks of their own.
    Bytes(Vec<u8>),
    /// A block named outright, wherever that is.
    Block(u64),
}

#[derive(Clone, Debug)]
pub struct Extent {
    pub logical: u64,
    pub length: u64,
    pub source: Source,
}

#[derive(Clone, Debug)]
pub struct Stream {
    pub id: u64,
    pub extents: Vec<Extent>,
}

#[derive(Clone, Debug)]
pub struct File {
    pub inode: Inode,
    pub attributes: Vec<Attribute>,
    pub entries: Vec<Entry>,
}

#[derive(Clone, Debug)]
pub struct Contents {
    pub label: Vec<u8>,
    pub case_insensitive: bool,
    pub normalization_insensitive: bool,
    pub encrypted: bool,
    pub sealed: bool,
    pub files: Vec<File>,
    pub streams: Vec<Stream>,
    /// Records of other kinds, and ghosts.
    pub others: Vec<Record>,
    /// Whether every call must find what is listed here.
    pub regular: bool,
}

/// A text field's lossy reading up to the first zero byte.
pub fn text(field: &[u8]) -> String {
    let part = field.split(|&b| b == 0).next().unwrap_or_default();
    String::from_utf8_lossy(part).into_owned()
}

impl Inode {
    /// The copy of a field that counts.
    pub fn last(&self, kind: u8) -> Option<&Field> {
        self.fields.iter().rev().find(|f| f.kind == kind)
    }

    pub fn name(&self) -> Option<String> {
        self.last(NAME_FIELD).map(|f| text(&f.data))
    }

    /// Size and allocated size.
    pub fn stream(&self) -> Option<(u64, u64)> {
        let number = |b: &[u8]| u64::from_le_bytes(b.try_into().expect("8 bytes"));
        self.last(STREAM_FIELD).map(|f| (number(&f.data[..8]), number(&f.data[8..16])))
    }

    pub fn is_compressed(&self) -> bool {
        self.bsd & COMPRESSED != 0
    }
}

impl Contents {
    /// Whether directory keys are hashed, by the volume's kind.
    pub fn has_hashed_keys(&self) -> bool {
        self.case_insensitive || self.normalization_insensitive
    }

    /// Every key in the form that the volume's kind asks for.
    pub fn form_keys(&mut self) {
        let hashed = self.has_hashed_keys();
        self.files.iter_mut().flat_map(|f| &mut f.entries).for_each(|e| e.key = e.key.formed(hashed));
    }

    pub fn stream(&self, id: u64) -> &[Extent] {
        self.streams.iter().find(|s| s.id == id).map_or(&[], |s| &s.extents)
    }

    pub fn file(&self, id: u64) -> Option<&File> {
        self.files.iter().find(|f| f.inode.id == id)
    }

    /// The first `size` bytes of a stream, its extents in order and apart.
    pub fn bytes(&self, id: u64, size: u64) -> Vec<u8> {
        let mut out = vec![0; size as usize];
        for e in self.stream(id) {
            let Source::Bytes(data) = &e.source else { continue };
            let start = e.logical.min(size) as usize;
            let end = (e.logical + e.length).min(size) as usize;
            out[start..end].copy_from_slice(&data[..end - start]);
        }
        out
    }
}
