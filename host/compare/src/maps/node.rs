//! Nodes of a tree by their bytes: Apple File System Reference, "B-Trees", and document 01, btree.rs.

use std::ops::Range;

use sticks::block::{is_sealed, BTREE, BTREE_NODE, OMAP, PHYSICAL};

const ROOT: u64 = 0x1;
const LEAF: u64 = 0x2;
const FIXED: u64 = 0x4;
const HASHED: u64 = 0x8;

/// Where the node's own bytes end and its table of contents may start.
const HEAD: usize = 56;
/// What a root ends in.
const INFO: usize = 40;
const HIGHEST: u64 = 32;
const NO_VALUE: usize = 0xffff;

const STORAGE: u32 = 0xc000_0000;
const PHYSICAL_TREE: u64 = 0x10;
/// Bytes of a map's keys and values, and of a child's address.
pub const KEY: usize = 16;
const VALUE: usize = 16;
pub const CHILD: usize = 8;

/// The number in the `n` bytes at a place, if they are there.
pub fn number(b: &[u8], at: usize, n: usize) -> Option<u64> {
    let bytes = b.get(at..at.checked_add(n)?)?;
    Some(bytes.iter().rev().fold(0, |number, &byte| number << 8 | u64::from(byte)))
}

/// The blocks of an image, as block 0 counts them.
#[derive(Clone, Copy)]
pub struct Disk<'a> {
    image: &'a [u8],
    pub block_size: usize,
    pub blocks: u64,
}

impl<'a> Disk<'a> {
    pub fn of(image: &'a [u8]) -> Option<Disk<'a>> {
        Some(Disk { image, block_size: number(image, 36, 4)? as usize, blocks: number(image, 40, 8)? })
    }

    /// The bytes of a block that may be addressed.
    pub fn range(&self, block: u64) -> Option<Range<usize>> {
        let counted = block != 0 && block < self.blocks;
        let start = usize::try_from(block).ok().filter(|_| counted)?.checked_mul(self.block_size)?;
        Some(start..start.checked_add(self.block_size)?)
    }

    pub fn object(&self, block: u64) -> Option<&'a [u8]> {
        self.image.get(self.range(block)?).filter(|b| is_sealed(b))
    }

    pub fn node(&self, block: u64) -> Option<Node<'a>> {
        Node::parse(self.object(block)?)
    }

    /// The block that the object map in a block names as its tree's root.
    pub fn map_root(&self, block: u64) -> Option<u64> {
        let map = self.object(block)?;
        let is_map = number(map, 24, 2)? as u32 == OMAP && number(map, 40, 4)? as u32 & STORAGE == PHYSICAL;
        number(map, 48, 8).filter(|_| is_map)
    }
}

/// Where an entry's key and value stand in their block.
pub struct Spans {
    pub key: Range<usize>,
    pub value: Option<Range<usize>>,
}

pub struct Node<'a> {
    pub bytes: &'a [u8],
    pub level: u64,
    /// How many entries it has.
    pub count: usize,
    /// The table of contents. Keys are counted from its end on, values back from theirs.
    pub table: Range<usize>,
    values_end: usize,
    flags: u64,
}

impl<'a> Node<'a> {
    fn parse(bytes: &'a [u8]) -> Option<Node<'a>> {
        let kind = number(bytes, 24, 2)? as u32;
        let (flags, level) = (number(bytes, 32, 2)?, number(bytes, 34, 2)?);
        let count = number(bytes, 36, 4)? as usize;
        let start = HEAD + number(bytes, 40, 2)? as usize;
        let table = start..start + number(bytes, 42, 2)? as usize;
        let values_end = bytes.len() - if flags & ROOT != 0 { INFO } else { 0 };
        let is_node = matches!(kind, BTREE | BTREE_NODE) && flags & HASHED == 0;
        let fits = table.end <= values_end && level <= HIGHEST;
        (is_node && fits).then_some(Node { bytes, level, count, table, values_end, flags })
    }

    /// At any level.
    pub fn is_leaf(&self) -> bool {
        self.flags & LEAF != 0
    }

    /// What a root says of its tree: the number at a place of its last bytes.
    fn info(&self, at: usize) -> Option<u64> {
        number(self.bytes, self.values_end + at, 4).filter(|_| self.flags & ROOT != 0)
    }

    /// Bytes of keys and values in the nodes of one size, by the tree's root.
    pub fn sizes(&self) -> Option<(usize, usize)> {
        Some((self.info(8)? as usize, self.info(12)? as usize))
    }

    /// Whether it is the root of a map's tree, by what it says of the tree.
    pub fn is_map_root(&self) -> bool {
        self.sizes() == Some((KEY, VALUE)) && self.info(0).is_some_and(|flags| flags & PHYSICAL_TREE != 0)
    }

    /// The `i`-th entry of a map's node, where all of it stands in the block.
    pub fn spans(&self, i: usize) -> Option<Spans> {
        self.spans_of(i, (KEY, VALUE))
    }

    /// The same in a tree whose nodes of one size have keys and values of these sizes.
    pub fn spans_of(&self, i: usize, sizes: (usize, usize)) -> Option<Spans> {
        if i >= self.count {
            return None;
        }
        let word = |at: usize| number(self.bytes, self.table.start + at, 2).map(|n| n as usize);
        let (key, key_length, value, value_length) = if self.flags & FIXED != 0 {
            (word(4 * i)?, sizes.0, word(4 * i + 2)?, if self.is_leaf() { sizes.1 } else { CHILD })
        } else {
            (word(8 * i)?, word(8 * i + 2)?, word(8 * i + 4)?, word(8 * i + 6)?)
        };
        let inside = |start: usize, length: usize| {
            let end = start + length;
            (end <= self.bytes.len()).then_some(start..end)
        };
        let key = inside(self.table.end + key, key_length)?;
        if value == NO_VALUE {
            return Some(Spans { key, value: None });
        }
        let value = inside(self.values_end.checked_sub(value)?, value_length)?;
        Some(Spans { key, value: Some(value) })
    }
}
