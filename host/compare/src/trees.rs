//! The trees of a container gone through by the host itself: lookups in object maps and scans of volumes' trees, by
//! document 01, btree.rs and omap.rs, and the nodes that they go through. From the Rust it has nothing.

use std::cmp::Ordering;
use std::collections::HashMap;
use std::ops::Range;
use std::rc::Rc;

use crate::maps::node::{number, Disk, Node};
use crate::maps::walk::{is_above, mapping};
use crate::maps::{Key, Mapping};

const DELETED: u32 = 0x1;
const ENCRYPTED: u32 = 0x4;
const ID: u64 = (1 << 60) - 1;

/// An id and a kind, as a key of a volume's tree begins with them.
pub type Head = (u64, u8);

pub fn head(key: &[u8]) -> Option<Head> {
    let n = number(key, 0, 8)?;
    Some((n & ID, (n >> 60) as u8))
}

/// A node, and the block that it stands in.
#[derive(Clone)]
pub struct Placed<'a> {
    pub block: u64,
    pub node: Rc<Node<'a>>,
}

/// An object map as of a transaction.
pub struct Map<'a> {
    root: Placed<'a>,
    xid: u64,
}

/// A volume's tree.
pub struct Tree<'a> {
    map: Map<'a>,
    pub root: Placed<'a>,
    /// Of keys and values in nodes of one size.
    pub sizes: (usize, usize),
}

/// An entry of a leaf that has a value, and where they stand in their block.
pub struct Record<'a> {
    pub block: u64,
    bytes: &'a [u8],
    pub key: Range<usize>,
    pub value: Range<usize>,
}

impl<'a> Record<'a> {
    pub fn key(&self) -> &'a [u8] {
        &self.bytes[self.key.clone()]
    }

    pub fn value(&self) -> &'a [u8] {
        &self.bytes[self.value.clone()]
    }
}

/// Of a record, whether to go on; none at a fault.
pub type Each<'f, 'a> = &'f mut dyn FnMut(&Record<'a>) -> Option<bool>;

/// What walks go through. Where one has no answer, it is refused.
pub struct Walker<'a> {
    pub disk: Disk<'a>,
    /// What stands in a block that was read: a node, or none.
    known: HashMap<u64, Option<Rc<Node<'a>>>>,
    /// The blocks of the nodes that were gone through, one after the other.
    pub path: Vec<u64>,
}

impl<'a> Walker<'a> {
    pub fn of(part: &'a [u8]) -> Option<Walker<'a>> {
        Some(Walker { disk: Disk::of(part)?, known: HashMap::new(), path: Vec::new() })
    }

    /// A node is gone through once its block has passed as one.
    fn read(&mut self, block: u64) -> Option<Placed<'a>> {
        let disk = self.disk;
        let node = self.known.entry(block).or_insert_with(|| disk.node(block).map(Rc::new)).clone()?;
        self.path.push(block);
        Some(Placed { block, node })
    }

    /// A walk begins with its root, which was read before.
    fn begin(&mut self, root: &Placed<'a>) -> Placed<'a> {
        self.path.push(root.block);
        root.clone()
    }

    /// Loads the object map in a block.
    pub fn map(&mut self, block: u64, xid: u64) -> Option<Map<'a>> {
        let root = self.disk.map_root(block)?;
        let root = self.read(root).filter(|root| root.node.is_map_root())?;
        Some(Map { root, xid })
    }

    /// The mapping of an object, if it is not absent: the Rust's midpoints, also on unsorted nodes.
    pub fn mapped(&mut self, map: &Map<'a>, oid: u64) -> Option<Mapping> {
        let mut at = self.begin(&map.root);
        loop {
            let last = not_above(&at.node, (oid, map.xid))?.checked_sub(1)?;
            let spans = at.node.spans(last)?;
            let value = &at.node.bytes[spans.value?];
            if at.node.is_leaf() {
                let own = number(&at.node.bytes[spans.key], 0, 8)? == oid;
                return mapping(value).filter(|m| own && m.flags & DELETED == 0);
            }
            let child = self.read(number(value, 0, 8)?)?;
            at = Some(child).filter(|child| child.node.level + 1 == at.node.level)?;
        }
    }

    /// The block of an object of a volume's tree.
    fn resolved(&mut self, map: &Map<'a>, oid: u64) -> Option<u64> {
        self.mapped(map, oid).filter(|m| m.flags & ENCRYPTED == 0).map(|m| m.block)
    }

    /// Loads the tree of a volume that has this map.
    pub fn tree(&mut self, map: Map<'a>, root: u64) -> Option<Tree<'a>> {
        let block = self.resolved(&map, root)?;
        let root = self.read(block)?;
        let sizes = root.node.sizes()?;
        Some(Tree { map, root, sizes })
    }

    /// The child of an index node's entry.
    pub fn child(&mut self, tree: &Tree<'a>, node: &Node, i: usize) -> Option<Placed<'a>> {
        let value = node.spans_of(i, tree.sizes)?.value?;
        let block = self.resolved(&tree.map, number(&node.bytes[value], 0, 8)?)?;
        self.read(block).filter(|child| child.node.level + 1 == node.level)
    }

    /// One walk over the records of an id and a kind, in the tree's order.
    pub fn scan(&mut self, tree: &Tree<'a>, want: Head, each: Each<'_, 'a>) -> Option<()> {
        let root = self.begin(&tree.root);
        self.scan_node(tree, &root, want, each).map(|_| ())
    }

    /// Whether there may be more behind the node.
    fn scan_node(&mut self, tree: &Tree<'a>, at: &Placed<'a>, want: Head, each: Each<'_, 'a>) -> Option<bool> {
        if at.node.is_leaf() {
            return scan_leaf(tree, at, want, each);
        }
        let head_at = |i: usize| head(&at.node.bytes[at.node.spans_of(i, tree.sizes)?.key]);
        for i in 0..at.node.count {
            if head_at(i)? > want {
                return Some(false);
            }
            if i + 1 < at.node.count && head_at(i + 1)? < want {
                continue;
            }
            let child = self.child(tree, &at.node, i)?;
            if !self.scan_node(tree, &child, want, each)? {
                return Some(false);
            }
        }
        Some(true)
    }
}

fn scan_leaf<'a>(tree: &Tree<'a>, at: &Placed<'a>, want: Head, each: Each<'_, 'a>) -> Option<bool> {
    for i in 0..at.node.count {
        let spans = at.node.spans_of(i, tree.sizes)?;
        let value = match head(&at.node.bytes[spans.key.clone()])?.cmp(&want) {
            Ordering::Less => None,
            Ordering::Greater => return Some(false),
            Ordering::Equal => spans.value,
        };
        let Some(value) = value else { continue };
        if !each(&Record { block: at.block, bytes: at.node.bytes, key: spans.key, value })? {
            return Some(false);
        }
    }
    Some(true)
}

/// How many entries of a map's node are taken as not above the target.
fn not_above(node: &Node, target: Key) -> Option<usize> {
    let (mut low, mut high) = (0, node.count);
    while low < high {
        let mid = (low + high) / 2;
        let key = &node.bytes[node.spans(mid)?.key];
        if is_above((number(key, 0, 8)?, number(key, 8, 8)?), target) {
            high = mid;
        } else {
            low = mid + 1;
        }
    }
    Some(low)
}
