//! Document 01's scan once more, by the places of the records: the host's own walk through the volume's tree.

use std::collections::BTreeSet;

use oracle::fs::Volume;
use oracle::nx::Container;

use crate::maps::node::Disk;
use crate::marks::{Mark, Part, NONE};
use crate::trees::{head, Head, Placed, Tree, Walker};

/// The tree of a volume that is opened.
fn opened<'a>(part: &'a [u8], c: &Container, v: &Volume) -> Option<(Walker<'a>, Tree<'a>)> {
    let mut walker = Walker::of(part)?;
    let map = walker.map(v.sb.omap_oid, c.xid())?;
    let tree = walker.tree(map, v.sb.root_tree_oid)?;
    Some((walker, tree))
}

/// The records of an id and a kind in the tree's order, up to a fault, and whether there was none.
pub fn marks(part: &[u8], c: &Container, v: &Volume, want: Head) -> (Vec<Mark>, bool) {
    let Some((mut walker, tree)) = opened(part, c, v) else { return (Vec::new(), false) };
    let mut found = Vec::new();
    let scanned = walker.scan(&tree, want, &mut |record| {
        let (key, value) = (Part::of(record.key.clone()), Part::of(record.value.clone()));
        found.push(Mark { block: record.block, key, value });
        Some(true)
    });
    (found, scanned.is_some())
}

/// Whether a node in a block says of itself that it is a root.
pub fn is_root(part: &[u8], block: u64) -> bool {
    let node = Disk::of(part).and_then(|disk| disk.node(block));
    node.is_some_and(|node| node.sizes().is_some())
}

/// What stands in the leaves that can be reached.
#[derive(Default)]
pub struct Survey {
    pub heads: BTreeSet<Head>,
    /// The marks of entries without a value, which no scan hands out.
    pub ghosts: Vec<Mark>,
    seen: BTreeSet<u64>,
}

pub fn survey(part: &[u8], c: &Container, v: &Volume) -> Survey {
    let mut survey = Survey::default();
    if let Some((mut walker, tree)) = opened(part, c, v) {
        survey.node(&mut walker, &tree, &tree.root);
    }
    survey
}

impl Survey {
    fn node<'a>(&mut self, walker: &mut Walker<'a>, tree: &Tree<'a>, at: &Placed<'a>) {
        let node = &at.node;
        if !self.seen.insert(at.block) {
            return;
        }
        for i in 0..node.count {
            let Some(spans) = node.spans_of(i, tree.sizes) else { return };
            if !node.is_leaf() {
                walker.child(tree, node, i).into_iter().for_each(|child| self.node(walker, tree, &child));
                continue;
            }
            self.heads.extend(head(&node.bytes[spans.key.clone()]));
            if spans.value.is_none() {
                self.ghosts.push(Mark { block: at.block, key: Part::of(spans.key), value: NONE });
            }
        }
    }
}
