//! Files, directories, attributes and links of a volume.

use crate::contents::{
    Attribute, Contents, Data, Entry, Field, File, Inode, Key, Stream, BRIEF_FLAG, COMPRESSED, LINK_ATTRIBUTE,
    NAME_FIELD, STREAM_FIELD, STREAM_FLAG,
};
use crate::node::Record;
use crate::plan::{data, names};
use crate::random::Random;
use crate::record::{head, ID_MASK};
use crate::volume::LABEL;

const ROOT: u64 = 2;
const DIRECTORY: u16 = 4;
const REGULAR: u16 = 8;
const LINK: u16 = 10;

struct Maker<'r> {
    r: &'r mut Random,
    c: Contents,
    block_size: usize,
    /// Whether names are all of ASCII.
    plain_names: bool,
    key: Key,
    next_id: u64,
}

pub fn draw(block_size: usize, regular: bool, r: &mut Random) -> Contents {
    let c = Contents {
        label: names::any(r).into_iter().take(LABEL).collect(),
        case_insensitive: r.chance(1, 2),
        normalization_insensitive: r.chance(1, 3),
        encrypted: !regular && r.chance(1, 8),
        sealed: !regular && r.chance(1, 8),
        files: Vec::new(),
        streams: Vec::new(),
        others: Vec::new(),
        regular,
    };
    let key = r.pick(&[Key::Hashed, Key::Hashed, Key::Hashed, Key::Plain, Key::Bare]);
    let next_id = r.pick(&[16, 16, 1000, ID_MASK - 20_000]);
    let mut m = Maker { c, block_size, plain_names: r.chance(1, 2), key, next_id, r };
    m.grow();
    m.c
}

impl Maker<'_> {
    fn grow(&mut self) {
        let root = self.file(ROOT, 1, DIRECTORY);
        self.c.files.push(root);
        let chain = self.r.chance(1, 12);
        for _ in 0..self.how_many() {
            let parent = if chain { self.c.files.len() - 1 } else { self.directory() };
            self.child(parent, chain);
        }
        for _ in 0..self.r.below(3) {
            self.hard_link();
        }
        if self.r.chance(1, 6) {
            self.cycle();
        }
        if !self.c.regular {
            self.stray();
        }
        self.c.others.extend(others(&self.c.files, self.r));
        self.settle_order();
    }

    fn how_many(&mut self) -> u64 {
        match (self.block_size, self.r.below(40)) {
            (4096, 0) => self.r.between(60, 150),
            (4096, _) => self.r.below(20),
            _ => self.r.below(7),
        }
    }

    /// The place of some directory.
    fn directory(&mut self) -> usize {
        let is_directory = |f: &File| f.inode.mode >> 12 == DIRECTORY;
        let all: Vec<usize> = (0..self.c.files.len()).filter(|&i| is_directory(&self.c.files[i])).collect();
        self.r.pick(&all)
    }

    fn fresh_id(&mut self) -> u64 {
        self.next_id += self.r.pick(&[1, 1, 1, 2, 17]);
        self.next_id
    }

    fn child(&mut self, parent: usize, chain: bool) {
        let kind = if chain { DIRECTORY } else { self.r.pick(&[4, 4, 4, 8, 8, 8, 8, 8, 10, 1, 12, 0]) };
        let id = self.fresh_id();
        let file = self.file(id, self.c.files[parent].inode.id, kind);
        self.c.files.push(file);
        self.enter(parent, id, kind);
    }

    fn name(&mut self) -> Vec<u8> {
        if self.plain_names {
            names::plain(self.r)
        } else {
            names::any(self.r)
        }
    }

    fn enter(&mut self, dir: usize, id: u64, kind: u16) {
        let mut name = self.name();
        let key = if self.r.chance(1, 10) { self.r.pick(&[Key::Hashed, Key::Plain, Key::Bare]) } else { self.key };
        if key == Key::Plain && name.is_empty() && self.c.regular {
            name.push(b'e'); // the Rust wants 12 bytes of a key
        }
        let date = self.r.draw() >> self.r.pick(&[0, 4, 64 - 1]);
        let flags = kind | self.r.pick(&[0, 0, 0x10, 0xfff0]);
        self.c.files[dir].entries.push(Entry { key, name, id, date, flags });
    }

    fn file(&mut self, id: u64, parent: u64, kind: u16) -> File {
        let mut inode = self.inode(id, parent, kind);
        let mut attributes = Vec::new();
        match kind {
            REGULAR => self.stream(&mut inode),
            LINK => {
                for _ in 0..self.r.pick(&[1, 1, 1, 1, 1, 2]) {
                    let a = self.target();
                    attributes.push(a);
                }
            }
            _ => {}
        }
        for _ in 0..self.r.pick(&[0, 0, 0, 1, 2]) {
            let a = self.attribute();
            attributes.push(a);
        }
        File { inode, attributes, entries: Vec::new() }
    }

    fn inode(&mut self, id: u64, parent: u64, kind: u16) -> Inode {
        let r = &mut *self.r;
        let mut inode = Inode {
            id,
            parent,
            private: if r.chance(1, 8) { r.below(1 << 30) } else { id },
            times: [0; 4].map(|_: u64| r.draw() >> r.pick(&[0, 2, 63])),
            flags: r.pick(&[0, 0x8000, 0x200, u64::MAX]),
            links: r.pick(&[0, 1, 1, 2, -1, i32::MIN, i32::MAX]),
            bsd: r.pick(&[0, 0, 0, 1, 0xffff_ffdf]),
            owner: r.pick(&[99, 501, u32::MAX]),
            group: r.pick(&[99, 20, 0]),
            mode: kind << 12 | r.pick(&[0o755, 0o644, 0]),
            fields: Vec::new(),
            short: r.pick(&[0, 0, 10, 7, 1]),
        };
        if r.chance(1, 16) {
            inode.bsd |= COMPRESSED;
        }
        for _ in 0..r.pick(&[0, 1, 1, 1, 2, 3]) {
            let f = self.field();
            inode.fields.push(f);
        }
        inode
    }

    fn field(&mut self) -> Field {
        let kind = self.r.pick(&[NAME_FIELD, NAME_FIELD, 13, 200]);
        let mut data = if kind == NAME_FIELD { self.name() } else { vec![7; self.r.place(20)] };
        if kind == NAME_FIELD && self.r.chance(7, 8) {
            data.push(0);
        }
        Field { kind, flags: self.r.pick(&[0, 1, 2, 0x20]), data }
    }

    /// A data stream of the inode's own, or none.
    fn stream(&mut self, inode: &mut Inode) {
        if self.r.chance(1, 8) {
            return;
        }
        let size = self.extents(inode.private);
        let mut data = [size, size.saturating_add(4095) & !4095, 0, 0, 0].map(u64::to_le_bytes).concat();
        data.truncate(self.r.pick(&[40, 40, 16, 17]));
        if self.r.chance(1, 10) {
            inode.fields.push(Field { kind: STREAM_FIELD, flags: 0, data: vec![3; 16] });
        }
        inode.fields.push(Field { kind: STREAM_FIELD, flags: 0x20, data });
    }

    /// Writes the extents of a stream; its size.
    fn extents(&mut self, id: u64) -> u64 {
        let odd = !self.c.regular && self.r.chance(1, 2);
        let draw = if odd { data::irregular } else { data::regular };
        let (extents, size) = draw(self.block_size, self.r);
        if self.c.streams.iter().all(|s| s.id != id) {
            self.c.streams.push(Stream { id, extents });
        }
        size
    }

    fn target(&mut self) -> Attribute {
        let mut data = names::target(self.r);
        if self.r.chance(3, 4) {
            data.push(0);
        }
        let name = LINK_ATTRIBUTE.to_vec();
        if data.len() > 1500 || self.r.chance(1, 3) {
            let (id, size) = self.text(&data);
            return Attribute { name, flags: STREAM_FLAG | 2, data: Data::Stream { id, size } };
        }
        Attribute { name, flags: 2, data: Data::Embedded(data) }
    }

    /// A stream that holds a text; its id and size.
    fn text(&mut self, text: &[u8]) -> (u64, u64) {
        let id = self.fresh_id();
        let mut extents = data::text(text, self.block_size, self.r);
        let mut size = text.len() as u64;
        if !self.c.regular && self.r.chance(1, 3) {
            size = self.r.pick(&[0, size / 2, size + 1, 1 << 23, 1 << 40, u64::MAX]);
        }
        if !self.c.regular && self.r.chance(1, 6) {
            self.r.shuffle(&mut extents);
        }
        if self.c.streams.iter().any(|s| s.id == id) {
            return (id, 0);
        }
        self.c.streams.push(Stream { id, extents });
        (id, size)
    }

    fn attribute(&mut self) -> Attribute {
        let name = names::attribute(self.r);
        if self.r.chance(1, 3) {
            let id = self.fresh_id();
            let size = self.extents(id);
            let flags = STREAM_FLAG | self.r.pick(&[0, 4, BRIEF_FLAG]);
            return Attribute { name, flags, data: Data::Stream { id, size } };
        }
        let n = self.r.pick(&[0, 1, 8, 100, 1500]);
        Attribute { name, flags: self.r.pick(&[2, 2, 0, 6]), data: Data::Embedded(self.r.bytes(n)) }
    }

    fn hard_link(&mut self) {
        let (dir, file) = (self.directory(), self.r.place(self.c.files.len()));
        let inode = &self.c.files[file].inode;
        let (id, kind) = (inode.id, inode.mode >> 12);
        if kind != DIRECTORY {
            self.enter(dir, id, kind);
        }
    }

    /// An entry that leads back to a directory.
    fn cycle(&mut self) {
        let (dir, to) = (self.directory(), self.directory());
        let id = self.c.files[to].inode.id;
        self.enter(dir, id, DIRECTORY);
    }

    /// Entries of no inode, entries of a file, and a value or key of no known form.
    fn stray(&mut self) {
        let dir = self.directory();
        self.enter(dir, 9, REGULAR);
        if self.r.chance(1, 4) {
            let entries = &mut self.c.files[dir].entries;
            let at = self.r.place(entries.len());
            entries[at].key = Key::Wrong;
        }
        let file = self.r.place(self.c.files.len());
        self.enter(file, ROOT, REGULAR);
        let id = self.c.files[self.r.place(self.c.files.len())].inode.id;
        let kind = self.r.pick(&[3, 4, 8, 9]);
        let (key, value) = (self.r.place(16), self.r.pick(&[0, 3, 17, 81]));
        let key = [head(id, kind), self.r.bytes(key)].concat();
        self.c.others.push(Record::new(key, self.r.bytes(value)));
    }

    /// Directory records by their keys, as a tree wants them, in half of the volumes.
    fn settle_order(&mut self) {
        if self.r.chance(1, 2) {
            return;
        }
        let fold = self.c.case_insensitive;
        for f in &mut self.c.files {
            f.entries.sort_by_key(|e| (crate::sums::name_hash(&e.name, fold), e.name.clone()));
            f.attributes.sort_by(|a, b| a.name.cmp(&b.name));
        }
    }
}

/// Ghosts, and records that no call asks for.
pub fn others(files: &[File], r: &mut Random) -> Vec<Record> {
    let mut out = Vec::new();
    for _ in 0..r.below(4) {
        let id = files[r.place(files.len())].inode.id;
        let ghost = r.chance(1, 2);
        let kind = if ghost { r.pick(&[3, 4, 8, 9]) } else { r.pick(&[2, 5, 6, 10, 12]) };
        let key = [head(id, kind), r.bytes(8)].concat();
        out.push(if ghost { Record::ghost(key) } else { Record::new(key, vec![1; 4]) });
    }
    out
}
