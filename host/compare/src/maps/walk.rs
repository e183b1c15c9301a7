//! The walk over all entries of a map, leaf after leaf, and well-formed maps. It halves nothing.

use std::collections::BTreeSet;
use std::fmt;

use crate::maps::node::{number, Disk, Node};
use crate::maps::{Key, Mapping, Said};
use crate::opening::answer::Answer;

const DELETED: u32 = 0x1;
const CORRUPT: u64 = 2;

/// Why a map is not well-formed.
#[derive(Clone, Copy, Debug, PartialEq, Eq, PartialOrd, Ord)]
pub enum Fault {
    /// A node or an entry is refused.
    NotRead,
    /// Two index entries have one child: its entries come twice, or it has none and so no first key. Told before it is
    /// read again, as there may be more ways down to a node than can be walked.
    Shared,
    /// The entries don't ascend strictly.
    Order,
    /// An index entry's key is not its child's first.
    FirstKey,
}

impl fmt::Display for Fault {
    fn fmt(&self, f: &mut fmt::Formatter) -> fmt::Result {
        f.write_str(match self {
            Fault::NotRead => "not read",
            Fault::Shared => "a child twice",
            Fault::Order => "order",
            Fault::FirstKey => "first key",
        })
    }
}

/// An entry of a leaf.
#[derive(Clone, Debug)]
pub struct Entry {
    /// The numbers that its key begins with.
    pub key: Key,
    pub bytes: Vec<u8>,
    pub value: Option<Vec<u8>>,
}

/// A tree, read whole: a leaf's entries; of an index node each entry's key and child.
#[derive(Clone, Debug)]
pub enum Tree {
    Leaf(Vec<Entry>),
    Index(Vec<(Key, Tree)>),
}

impl Tree {
    /// Those of the leaves, leaf after leaf.
    pub fn entries(&self) -> Vec<&Entry> {
        match self {
            Tree::Leaf(entries) => entries.iter().collect(),
            Tree::Index(branches) => branches.iter().flat_map(|(_, child)| child.entries()).collect(),
        }
    }

    /// The key of the node's own first entry.
    pub fn first_key(&self) -> Option<Key> {
        match self {
            Tree::Leaf(entries) => entries.first().map(|e| e.key),
            Tree::Index(branches) => branches.first().map(|(key, _)| *key),
        }
    }

    /// Nodes from the root down to the lowest.
    pub fn levels(&self) -> usize {
        match self {
            Tree::Leaf(_) => 1,
            Tree::Index(branches) => 1 + branches.iter().map(|(_, child)| child.levels()).max().unwrap_or(0),
        }
    }
}

/// A map, read whole.
pub struct Map {
    pub tree: Tree,
    /// The blocks of its nodes.
    pub nodes: BTreeSet<u64>,
}

impl Map {
    /// The one that stands in this block.
    pub fn read(image: &[u8], block: u64) -> Result<Map, Fault> {
        Map::of(image, block).unwrap_or(Err(Fault::NotRead))
    }

    /// None where there is no root.
    fn of(image: &[u8], block: u64) -> Option<Result<Map, Fault>> {
        let disk = Disk::of(image)?;
        let root = disk.map_root(block)?;
        let node = disk.node(root).filter(Node::is_map_root)?;
        let mut reading = Reading { disk, nodes: BTreeSet::from([root]) };
        let tree = reading.tree(&node);
        Some(tree.map(|tree| Map { tree, nodes: reading.nodes }))
    }
}

struct Reading<'a> {
    disk: Disk<'a>,
    nodes: BTreeSet<u64>,
}

impl Reading<'_> {
    fn tree(&mut self, node: &Node) -> Result<Tree, Fault> {
        let places = 0..node.count;
        if node.is_leaf() {
            return places.map(|i| entry(node, i)).collect::<Result<_, _>>().map(Tree::Leaf);
        }
        places.map(|i| self.branch(node, i)).collect::<Result<_, _>>().map(Tree::Index)
    }

    fn branch(&mut self, node: &Node, i: usize) -> Result<(Key, Tree), Fault> {
        let entry = entry(node, i)?;
        let block = entry.value.and_then(|v| number(&v, 0, 8)).ok_or(Fault::NotRead)?;
        if !self.nodes.insert(block) {
            return Err(Fault::Shared);
        }
        let child = self.disk.node(block).filter(|child| child.level + 1 == node.level);
        Ok((entry.key, self.tree(&child.ok_or(Fault::NotRead)?)?))
    }
}

fn entry(node: &Node, i: usize) -> Result<Entry, Fault> {
    let whole = || {
        let spans = node.spans(i)?;
        let bytes = node.bytes[spans.key].to_vec();
        let key = (number(&bytes, 0, 8)?, number(&bytes, 8, 8)?);
        Some(Entry { key, bytes, value: spans.value.map(|value| node.bytes[value].to_vec()) })
    };
    whole().ok_or(Fault::NotRead)
}

pub fn is_above(key: Key, other: Key) -> bool {
    other.0 < key.0 || other.0 == key.0 && other.1 < key.1
}

pub fn well_formed(tree: &Tree) -> Result<(), Fault> {
    ascends(tree)?;
    has_first_keys(tree)
}

/// Each entry's key is above the one before it, in whatever leaf that is.
pub fn ascends(tree: &Tree) -> Result<(), Fault> {
    let rises = tree.entries().windows(2).all(|pair| is_above(pair[1].key, pair[0].key));
    rises.then_some(()).ok_or(Fault::Order)
}

/// Each index entry has a child whose first key equals its own. A child without an entry has none.
pub fn has_first_keys(tree: &Tree) -> Result<(), Fault> {
    let Tree::Index(branches) = tree else { return Ok(()) };
    branches.iter().try_for_each(|(key, child)| {
        if child.first_key() != Some(*key) {
            return Err(Fault::FirstKey);
        }
        has_first_keys(child)
    })
}

/// The last of all entries that is not above the target.
pub fn kept<'t>(entries: &[&'t Entry], target: Key) -> Option<&'t Entry> {
    let mut kept = None;
    for &entry in entries {
        if !is_above(entry.key, target) {
            kept = Some(entry);
        }
    }
    kept
}

/// What the entry that was kept is to the object that is asked about.
#[derive(Clone, Copy, Debug, PartialEq, Eq)]
pub enum Kind {
    None,
    AnotherOid,
    WithoutValue,
    /// Its value ends before a mapping does.
    Short,
    Deleted,
    Found(Mapping),
}

impl Kind {
    pub fn of(kept: Option<&Entry>, oid: u64) -> Kind {
        match kept.map(|entry| (entry.key.0, &entry.value)) {
            None => Kind::None,
            Some((other, _)) if other != oid => Kind::AnotherOid,
            Some((_, None)) => Kind::WithoutValue,
            Some((_, Some(value))) => match mapping(value) {
                None => Kind::Short,
                Some(m) if m.flags & DELETED != 0 => Kind::Deleted,
                Some(m) => Kind::Found(m),
            },
        }
    }

    pub fn name(self) -> &'static str {
        match self {
            Kind::None => "none",
            Kind::AnotherOid => "another oid",
            Kind::WithoutValue => "without a value",
            Kind::Short => "a value too short",
            Kind::Deleted => "deleted",
            Kind::Found(_) => "found",
        }
    }

    /// The object's mapping, which all but a sound one leave absent.
    fn mapping(self) -> Result<Option<Mapping>, Answer> {
        match self {
            Kind::Found(m) => Ok(Some(m)),
            Kind::Short => Err(Answer::Refused(CORRUPT)),
            _ => Ok(None),
        }
    }
}

/// The fields of a mapping.
pub fn mapping(value: &[u8]) -> Option<Mapping> {
    let (flags, size) = (number(value, 0, 4)? as u32, number(value, 4, 4)? as u32);
    Some(Mapping { flags, size, block: number(value, 8, 8)? })
}

/// What is said of an object where this entry was kept.
pub fn said(kept: Option<&Entry>, oid: u64) -> Said {
    let hit = kept.map(|entry| (entry.bytes.clone(), entry.value.clone()));
    Said { hit: Ok(hit), mapping: Kind::of(kept, oid).mapping() }
}
