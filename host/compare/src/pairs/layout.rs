//! In what two sticks of the same contents differ.

use std::sync::Arc;

use sticks::contents::{Contents, Entry, Source};
use sticks::plan::Plan;
use sticks::Stick;

use crate::opening::answer::{self, caught};

pub const KINDS: [&str; 17] = [
    "block size",
    "transaction",
    "ring",
    "broken checkpoints",
    "place of the ring",
    "unused blocks",
    "object ids",
    "tree's levels",
    "nodes' widths",
    "nodes' form",
    "extents",
    "holes",
    "keys",
    "stored names",
    "stored labels",
    "inodes' fields",
    "records of no account",
];

/// Those of [`KINDS`] that the sticks' volumes at `i` show.
pub fn differences(a: &Stick, b: &Stick, i: usize) -> Vec<&'static str> {
    let (p, q) = (&a.plan, &b.plan);
    let (v, w) = (&p.volumes[i], &q.volumes[i]);
    let (c, d) = (&v.contents, &w.contents);
    let differ = [
        p.block_size != q.block_size,
        p.xid != q.xid,
        (p.ring.blocks, p.ring.checkpoints.len()) != (q.ring.blocks, q.ring.checkpoints.len()),
        broken(p) != broken(q),
        p.ring_first != q.ring_first,
        p.gaps != q.gaps,
        (v.oid, v.first_node) != (w.oid, w.first_node),
        level(a, i) != level(b, i),
        (v.tree.leaf, v.tree.index) != (w.tree.leaf, w.tree.index),
        (v.tree.sizes, v.fixed, v.tree.loose) != (w.tree.sizes, w.fixed, w.tree.loose),
        extents(c) != extents(d),
        holes(c) != holes(d),
        of_entries(c, |e| e.key) != of_entries(d, |e| e.key),
        of_entries(c, |e| e.name.clone()) != of_entries(d, |e| e.name.clone()),
        c.label != d.label,
        fields(c) != fields(d),
        c.others != d.others,
    ];
    KINDS.into_iter().zip(differ).filter(|(_, differ)| *differ).map(|(kind, _)| kind).collect()
}

fn broken(p: &Plan) -> usize {
    p.ring.checkpoints.iter().filter(|c| c.fault.is_some()).count()
}

/// The level of the tree's root. The oracle may stop at a sum that overflows in a broken checkpoint.
fn level(s: &Stick, i: usize) -> Option<u16> {
    let image = Arc::new(s.image.clone());
    let c = caught(|| answer::container(&image)).ok()?.ok()?;
    let level = c.volume(i).ok()?.fs_root().level;
    Some(level)
}

fn extents(c: &Contents) -> Vec<usize> {
    c.streams.iter().map(|s| s.extents.len()).collect()
}

fn holes(c: &Contents) -> Vec<usize> {
    let is_hole = |e: &&sticks::contents::Extent| matches!(e.source, Source::Hole);
    c.streams.iter().map(|s| s.extents.iter().filter(is_hole).count()).collect()
}

fn of_entries<T>(c: &Contents, part: fn(&Entry) -> T) -> Vec<T> {
    c.files.iter().flat_map(|f| f.entries.iter().map(part)).collect()
}

fn fields(c: &Contents) -> Vec<Vec<u8>> {
    c.files.iter().map(|f| f.inode.fields.iter().map(|f| f.kind).collect()).collect()
}
