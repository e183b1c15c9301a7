//! Trees: records laid out over nodes of a chosen width, and written to the disk.

use crate::block::{BTREE, BTREE_NODE, PHYSICAL};
use crate::disk::Disk;
use crate::node::{Info, Node, Record, FIXED, HEAD, INFO, LEAF, ROOT};
use crate::random::Random;

/// Which nodes have keys and values of one size.
#[derive(Clone, Copy, Debug, PartialEq, Eq)]
pub enum Sizes {
    Fixed,
    Variable,
    /// As the sizes allow, by chance.
    Mixed,
}

#[derive(Clone, Debug)]
pub struct Shape {
    /// Most records of a leaf.
    pub leaf: usize,
    /// Most children of an index node, at least 2.
    pub index: usize,
    /// Index nodes with one child above the tree.
    pub extra: u16,
    /// The level of the lowest leaves.
    pub floor: u16,
    /// Whether leaves may stand above the floor.
    pub high_leaves: bool,
    /// Whether index nodes without children stand among the leaves.
    pub hollow: bool,
    pub sizes: Sizes,
    /// Whether nodes have gaps and disorder inside.
    pub loose: bool,
    /// Whether every object has the type that the reference gives it, to which readers here don't hold it.
    pub typed: bool,
    pub random: Random,
}

/// How a parent names its child, and a node itself.
pub enum Ids {
    /// By block.
    Physical,
    /// By numbers from `next` on; `mapped` collects each with its block.
    Virtual { next: u64, mapped: Vec<(u64, u64)> },
}

pub struct Tree {
    level: u16,
    first: Vec<u8>,
    part: Part,
}

enum Part {
    Leaf(Vec<Record>),
    Index(Vec<Tree>),
}

const HIGHEST: u16 = 32;

impl Tree {
    fn leaf(level: u16, records: Vec<Record>) -> Tree {
        Tree { level, first: records.first().map_or(Vec::new(), |r| r.key.clone()), part: Part::Leaf(records) }
    }

    fn index(children: Vec<Tree>) -> Tree {
        Tree { level: children[0].level + 1, first: children[0].first.clone(), part: Part::Index(children) }
    }

    pub fn nodes(&self) -> usize {
        match &self.part {
            Part::Leaf(_) => 1,
            Part::Index(children) => 1 + children.iter().map(Tree::nodes).sum::<usize>(),
        }
    }

    fn keys(&self) -> u64 {
        match &self.part {
            Part::Leaf(records) => records.len() as u64,
            Part::Index(children) => children.iter().map(Tree::keys).sum(),
        }
    }
}

/// Records in the order given, as a tree; `block_size` bounds what a node holds.
pub fn grow(records: Vec<Record>, block_size: usize, shape: &mut Shape) -> Tree {
    let room = block_size - HEAD - INFO;
    let mut row = leaves(records, room, shape);
    if shape.hollow {
        add_hollow(&mut row, shape);
    }
    while row.len() > 1 {
        row = above(row, room, shape);
    }
    let mut tree = row.remove(0);
    for _ in 0..shape.extra {
        if tree.level < HIGHEST {
            tree = Tree::index(vec![tree]);
        }
    }
    tree
}

fn leaves(records: Vec<Record>, room: usize, shape: &mut Shape) -> Vec<Tree> {
    let mut row = Vec::new();
    let (mut now, mut size) = (Vec::new(), 0);
    let mut most = shape.random.between(1, shape.leaf as u64) as usize;
    for r in records {
        if now.len() >= most || size + r.size() > room {
            row.push(Tree::leaf(shape.floor, std::mem::take(&mut now)));
            size = 0;
            most = shape.random.between(shape.leaf as u64 / 2 + 1, shape.leaf as u64) as usize;
        }
        size += r.size();
        now.push(r);
    }
    if !now.is_empty() || row.is_empty() {
        row.push(Tree::leaf(shape.floor, now));
    }
    row
}

/// An index node of no children after some leaf, from that leaf's last key on.
fn add_hollow(row: &mut Vec<Tree>, shape: &mut Shape) {
    let at = shape.random.place(row.len());
    let last = match &row[at].part {
        Part::Leaf(records) => records.last(),
        Part::Index(_) => None,
    };
    if let Some(r) = last {
        let hollow = Tree { level: shape.floor, first: r.key.clone(), part: Part::Index(Vec::new()) };
        row.insert(at + 1, hollow);
    }
}

/// The next row up. A leaf that would be an only child may rise instead.
fn above(row: Vec<Tree>, room: usize, shape: &mut Shape) -> Vec<Tree> {
    let mut next = Vec::new();
    let (mut now, mut size) = (Vec::new(), 0);
    let mut most = width(shape, row[0].level);
    for t in row {
        if now.len() >= most || size + t.first.len() + 16 > room {
            next.push(parent(std::mem::take(&mut now), shape));
            size = 0;
            most = width(shape, t.level);
        }
        size += t.first.len() + 16;
        now.push(t);
    }
    next.push(parent(now, shape));
    next
}

fn width(shape: &mut Shape, level: u16) -> usize {
    // Rows of single children would never end.
    if level < 8 && shape.random.chance(1, 6) {
        1
    } else {
        shape.random.between(2, shape.index as u64) as usize
    }
}

fn parent(mut children: Vec<Tree>, shape: &mut Shape) -> Tree {
    let only_leaf = children.len() == 1 && matches!(children[0].part, Part::Leaf(_));
    if only_leaf && shape.high_leaves && shape.random.chance(2, 3) {
        children[0].level += 1;
        return children.remove(0);
    }
    Tree::index(children)
}

/// Where and how a tree is written.
pub struct Place<'a> {
    pub disk: &'a mut Disk,
    pub ids: Ids,
    pub xid: u64,
    pub subtype: u32,
    pub info: Info,
}

impl Place<'_> {
    /// Writes the whole tree; the root's id and block.
    pub fn write(&mut self, tree: &Tree, shape: &mut Shape) -> (u64, u64) {
        self.info.keys = tree.keys();
        self.info.nodes = tree.nodes() as u64;
        let mut blocks = self.disk.scatter(tree.nodes());
        self.node(tree, true, shape, &mut blocks)
    }

    fn node(&mut self, tree: &Tree, root: bool, shape: &mut Shape, blocks: &mut Vec<u64>) -> (u64, u64) {
        let pointers;
        let (records, leaf) = match &tree.part {
            Part::Leaf(records) => (records, true),
            Part::Index(children) => {
                pointers = self.children(children, shape, blocks);
                (&pointers, false)
            }
        };
        let block = blocks.pop().expect("a block for each node");
        let oid = self.id(block);
        let fixed = self.is_fixed(records, leaf, shape);
        let cut;
        let records = if fixed && !leaf {
            cut = self.cut(records);
            &cut
        } else {
            records
        };
        let bit = |yes: bool, flag: u16| if yes { flag } else { 0 };
        let node = Node {
            oid,
            xid: self.xid,
            kind: self.kind(root, shape),
            subtype: self.subtype,
            flags: bit(root, ROOT) | bit(leaf, LEAF) | bit(fixed, FIXED),
            level: tree.level,
            records,
            info: root.then_some(&self.info),
        };
        let loose = shape.loose.then(|| shape.random.fork());
        let bytes = node.bytes(self.disk.block_size, loose);
        self.disk.put(block, &bytes);
        (oid, block)
    }

    fn children(&mut self, children: &[Tree], shape: &mut Shape, blocks: &mut Vec<u64>) -> Vec<Record> {
        let mut out = Vec::new();
        for c in children {
            let (id, _) = self.node(c, false, shape, blocks);
            out.push(Record::new(c.first.clone(), id.to_le_bytes().to_vec()));
        }
        out
    }

    fn id(&mut self, block: u64) -> u64 {
        match &mut self.ids {
            Ids::Physical => block,
            Ids::Virtual { next, mapped } => {
                let oid = *next;
                *next += 1;
                mapped.push((oid, block));
                oid
            }
        }
    }

    fn kind(&self, root: bool, shape: &mut Shape) -> u32 {
        let storage = if matches!(self.ids, Ids::Physical) { PHYSICAL } else { 0 };
        // Readers take either kind for either place.
        let usual = shape.random.chance(15, 16) || shape.typed;
        storage | if root == usual { BTREE } else { BTREE_NODE }
    }

    /// Keys of an index node that are longer than the tree's one size serve cut to it.
    fn cut(&self, records: &[Record]) -> Vec<Record> {
        let n = self.info.key_size as usize;
        records.iter().map(|r| Record { key: r.key[..n].to_vec(), value: r.value.clone() }).collect()
    }

    fn is_fixed(&self, records: &[Record], leaf: bool, shape: &mut Shape) -> bool {
        let (k, v) = (self.info.key_size as usize, self.info.value_size as usize);
        let fits = |r: &Record| match &r.value {
            _ if !leaf => r.key.len() >= k,
            Some(value) => r.key.len() == k && value.len() == v,
            None => r.key.len() == k,
        };
        let possible = k > 0 && records.iter().all(fits);
        possible
            && match shape.sizes {
                Sizes::Fixed => true,
                Sizes::Variable => false,
                Sizes::Mixed => shape.random.chance(1, 2),
            }
    }
}
