//! The bytes of one B-tree node.

use crate::block::{header, put, put16, put32, put64, seal};
use crate::random::Random;

pub const ROOT: u16 = 0x1;
pub const LEAF: u16 = 0x2;
pub const FIXED: u16 = 0x4;

pub const HEAD: usize = 56;
pub const INFO: usize = 40;
const GHOST: u16 = 0xffff;

/// A key and its value; a ghost has none.
#[derive(Clone, Debug, PartialEq, Eq)]
pub struct Record {
    pub key: Vec<u8>,
    pub value: Option<Vec<u8>>,
}

impl Record {
    pub fn new(key: Vec<u8>, value: Vec<u8>) -> Self {
        Record { key, value: Some(value) }
    }

    pub fn ghost(key: Vec<u8>) -> Self {
        Record { key, value: None }
    }

    /// The bytes it takes in a node, its place in the table of contents included.
    pub fn size(&self) -> usize {
        8 + self.key.len() + self.value.as_ref().map_or(0, Vec::len)
    }
}

/// What a root says of its whole tree.
#[derive(Clone, Debug, Default)]
pub struct Info {
    pub flags: u32,
    pub key_size: u32,
    pub value_size: u32,
    pub keys: u64,
    pub nodes: u64,
}

pub struct Node<'a> {
    pub oid: u64,
    pub xid: u64,
    pub kind: u32,
    pub subtype: u32,
    pub flags: u16,
    pub level: u16,
    pub records: &'a [Record],
    /// A root's.
    pub info: Option<&'a Info>,
}

/// Unused bytes to leave here and there, as long as there are any.
struct Gaps {
    random: Option<Random>,
    left: usize,
}

impl Gaps {
    fn next(&mut self) -> usize {
        let Some(random) = &mut self.random else { return 0 };
        let n = if random.chance(1, 4) { random.place(24).min(self.left) } else { 0 };
        self.left -= n;
        n
    }

    fn order(&mut self, n: usize) -> Vec<usize> {
        let mut order: Vec<usize> = (0..n).collect();
        if let Some(random) = &mut self.random {
            random.shuffle(&mut order);
        }
        order
    }
}

impl Node<'_> {
    fn is_fixed(&self) -> bool {
        self.flags & FIXED != 0
    }

    fn entry_size(&self) -> usize {
        if self.is_fixed() {
            4
        } else {
            8
        }
    }

    /// The node's block. With `loose`, keys and values stand in any order with gaps between.
    pub fn bytes(&self, block_size: usize, loose: Option<Random>) -> Vec<u8> {
        let mut b = vec![0; block_size];
        header(&mut b, self.oid, self.xid, self.kind, self.subtype);
        let end = block_size - if self.info.is_some() { INFO } else { 0 };
        let used: usize = self.records.iter().map(Record::size).sum();
        let mut gaps = Gaps { random: loose, left: end - HEAD - used };
        let toc_off = gaps.next() / 8 * 8;
        let toc_len = self.records.len() * self.entry_size() + gaps.next() / 4 * 4;
        put16(&mut b, 32, self.flags);
        put16(&mut b, 34, self.level);
        put32(&mut b, 36, self.records.len() as u32);
        put16(&mut b, 40, toc_off as u16);
        put16(&mut b, 42, toc_len as u16);
        self.put_free(&mut b);
        let toc = HEAD + toc_off;
        self.put_keys(&mut b, toc, toc + toc_len, &mut gaps);
        self.put_values(&mut b, toc, end, &mut gaps);
        if let Some(info) = self.info {
            self.put_info(&mut b[end..], info, block_size);
        }
        seal(&mut b);
        b
    }

    fn put_free(&self, b: &mut [u8]) {
        // Free lists: none. No reader looks at them.
        put16(b, 48, GHOST);
        put16(b, 52, GHOST);
    }

    fn put_keys(&self, b: &mut [u8], toc: usize, start: usize, gaps: &mut Gaps) {
        let mut at = start;
        for i in gaps.order(self.records.len()) {
            at += gaps.next();
            let (key, entry) = (&self.records[i].key, toc + i * self.entry_size());
            put(b, at, key);
            put16(b, entry, (at - start) as u16);
            if !self.is_fixed() {
                put16(b, entry + 2, key.len() as u16);
            }
            at += key.len();
        }
    }

    fn put_values(&self, b: &mut [u8], toc: usize, end: usize, gaps: &mut Gaps) {
        let mut at = end;
        for i in gaps.order(self.records.len()) {
            let entry = toc + i * self.entry_size() + self.entry_size() / 2;
            let Some(value) = &self.records[i].value else {
                put16(b, entry, GHOST);
                continue;
            };
            at -= gaps.next() + value.len();
            put(b, at, value);
            put16(b, entry, (end - at) as u16);
            if !self.is_fixed() {
                put16(b, entry + 2, value.len() as u16);
            }
        }
    }

    fn put_info(&self, b: &mut [u8], info: &Info, block_size: usize) {
        put32(b, 0, info.flags);
        put32(b, 4, block_size as u32);
        put32(b, 8, info.key_size);
        put32(b, 12, info.value_size);
        put32(b, 16, info.key_size);
        put32(b, 20, info.value_size);
        put64(b, 24, info.keys);
        put64(b, 32, info.nodes);
    }
}
