//! "btree.rs": levels, hashed nodes, where keys start, children.

use sticks::block::{get16, put16, put32};
use sticks::make;

use super::stick::{changed, contents, directory, empty, file, plan, ROOT, ROOT_LINE, TREE_NODE, TREE_ROOT};
use super::Said::{Answered, Refused, Text};
use super::{group, Group, Said, Stated};

const FLAGS: usize = 32;
const LEVEL: usize = 34;
const HASHED: u16 = 8;
const NO_VALUE: u16 = 0xffff;
/// The first record's place in the table of contents.
const FIRST: usize = 56;

fn root(said: Said) -> Vec<Stated> {
    vec![Stated::lookup("", said)]
}

fn line() -> Said {
    Text(ROOT_LINE.into())
}

/// A tree of leaves of two records each at most, `extra` nodes above it.
fn tall(extra: u16) -> Vec<u8> {
    let mut plan = plan(contents(vec![directory(ROOT, &[("a", 16), ("b", 17)]), file(16), file(17)]));
    plan.volumes[0].tree.leaf = 2;
    plan.volumes[0].tree.extra = extra;
    make(plan).image
}

pub fn groups() -> Vec<Group> {
    vec![levels(), children(), layout(), values()]
}

fn levels() -> Group {
    let levelled = |n: u16| changed(&empty(), TREE_ROOT, |b| put16(b, LEVEL, n));
    let mut cases: Vec<_> = [0, 1, 32].into_iter().map(|n| (levelled(n), root(line()))).collect();
    cases.extend([33, u16::MAX].map(|n| (levelled(n), root(Refused(2)))));
    group("levels of a leaf", cases)
}

fn children() -> Group {
    let whole = tall(0);
    let levelled = |is, n: u16| changed(&whole, is, |b| put16(b, LEVEL, n));
    let b = || Stated::lookup("b", Answered);
    let cases = vec![
        (whole.clone(), vec![b()]),
        (tall(30), vec![b()]),
        (levelled(TREE_NODE, 1), root(Refused(2))),
        (levelled(TREE_ROOT, 0), root(Refused(2))),
        (levelled(TREE_ROOT, 2), root(Refused(2))),
        (levelled(TREE_ROOT, 33), root(Refused(2))),
    ];
    group("levels of a child and its parent, 33 nodes", cases)
}

fn layout() -> Group {
    let laid = |image: &[u8], is, length: u16| {
        changed(image, is, |b| {
            put32(b, 36, 0);
            put16(b, 42, length);
        })
    };
    let hashed = changed(&empty(), TREE_ROOT, |b| put16(b, FLAGS, get16(b, FLAGS) | HASHED));
    let deep = changed(&hashed, TREE_ROOT, |b| put16(b, LEVEL, 33));
    let cases = vec![
        (hashed, root(Refused(3))),
        (deep, root(Refused(3))),
        (laid(&empty(), TREE_ROOT, 4000), root(Refused(4))),
        (laid(&empty(), TREE_ROOT, 4001), root(Refused(2))),
        (laid(&empty(), TREE_ROOT, u16::MAX), root(Refused(2))),
        (laid(&tall(0), TREE_NODE, 4040), root(Refused(4))),
        (laid(&tall(0), TREE_NODE, 4041), root(Refused(2))),
    ];
    group("hashed nodes, keys that start past the value end", cases)
}

fn values() -> Group {
    let none = changed(&empty(), TREE_ROOT, |b| put16(b, FIRST + 4, NO_VALUE));
    let past = changed(&empty(), TREE_ROOT, |b| put16(b, FIRST + 4, 4090));
    group("a value offset of 0xffff", vec![(none, root(Refused(4))), (past, root(Refused(2)))])
}
