//! Request 06: the nodes that a call goes through, stated by the shapes of small trees.
//!
//! Most trees here have one record a leaf, below one root, and their volume's map is one node. So a leaf takes two: the
//! map's root, by which it is found, and the leaf.

use sticks::block::{get16, get32, put16, put32, put64, seal, OMAP};
use sticks::contents::Contents;
use sticks::gpt::around;
use sticks::plan::Save;
use sticks::volume::Volume;
use sticks::{make, Plan};

use super::stick::{
    changed, contents, directory, empty, file, image, plan, unsealed, Is, BLOCK, FILE, MAP_ROOT, OBJECT_MAP, ROOT,
    TREE_NODE, TREE_ROOT,
};
use super::Said::{Answered, Refused};
use super::{group, Group, Said, Stated};
use crate::desks::edges::{rounds, wide, ABSENT, LINK, PACKED, SIZE};
use crate::desks::request::{self as what, Request};

const LATEST: u64 = 100_000;
const FLAGS: usize = 32;
const LEVEL: usize = 34;
const LONG: usize = 65_536;

/// The container's map loaded, the volume looked up in it, the volume's map loaded, its tree looked up in that and loaded.
pub const OPENED: u64 = 5;
/// The first record of all.
pub const ROOT_INODE: u64 = 1 + 2;
/// The leaf before it, and its own.
pub const INODE: u64 = 1 + 2 * 2;

/// A list of so many records: the tree's root, the leaf before the first of them, and theirs.
pub const fn list(n: u64) -> u64 {
    1 + 2 * (n + 1)
}

pub fn groups() -> Vec<Group> {
    vec![calls(), refused(), short(), trees(), maps(), openings(), checkpoints()]
}

pub fn rounds_image() -> Vec<u8> {
    make(wide(rounds())).image
}

/// Some desk makes the call, from 0.
fn nodes(request: Request, nodes: u64, said: Said) -> Stated {
    let desk = (request.what + request.a) % 8;
    Stated::desk(desk, request, 0, nodes, said)
}

pub fn on(what: u64, a: u64, b: u64, n: u64, said: Said) -> Stated {
    nodes(Request { a, b, ..Request::of(what) }, n, said)
}

pub fn lookup(path: &str, n: u64, said: Said) -> Stated {
    nodes(Request { path: path.into(), ..Request::of(what::LOOKUP) }, n, said)
}

fn mark(id: u64, kind: u64, place: u64, n: u64) -> Stated {
    nodes(Request { a: id, b: place, c: kind, ..Request::of(what::MARK) }, OPENED + n, Answered)
}

fn name(kind: u64, id: u64, n: u64, said: Said) -> Stated {
    nodes(Request { a: id, b: 0, c: kind, ..Request::of(what::REPLACED) }, OPENED + n, said)
}

pub fn listing(n: u64, said: Said) -> Stated {
    nodes(Request::of(what::LIST), n, said).into_room(LONG)
}

pub fn measure(n: u64, said: Said) -> Stated {
    nodes(Request::of(what::MEASURE), n, said)
}

/// The root's inode and its entries.
pub const IN_ROOT: u64 = OPENED + ROOT_INODE + list(4);
pub const LISTED: u64 = 125;

fn calls() -> Group {
    let cases = vec![
        nodes(Request::of(what::OPEN), 1, Answered),
        lookup("", OPENED + ROOT_INODE, Answered),
        lookup("data", IN_ROOT + INODE, Answered),
        lookup("DIR/data", IN_ROOT + INODE + list(1) + INODE, Answered),
        on(what::READ, FILE, 0, OPENED + INODE + list(2), Answered).into_room(10),
        on(what::READ, FILE, SIZE, OPENED + INODE + list(2), Answered).into_room(10),
        on(what::EXTENT, FILE, 0, OPENED + INODE + list(2), Answered),
        on(what::ENTRY, ROOT, 0, OPENED + list(4), Answered),
        on(what::ENTRIES, ROOT, 2, OPENED + list(4), Answered),
        on(what::XATTR, ROOT, 0, OPENED + list(3), Answered),
        on(what::XATTR, ROOT, 1, OPENED + list(3) + list(1), Answered),
        on(what::XATTR_BYTES, ROOT, 9, OPENED + list(3), Answered),
        on(what::XATTR_BYTES, ROOT, 2, OPENED + list(3) + list(1), Answered),
        on(what::LINK, LINK, 0, OPENED + INODE + list(1) + list(1), Answered),
        listing(LISTED, Answered),
        measure(LISTED, Answered),
        mark(ROOT, 9, 0, list(1)),
        mark(ROOT, 0x109, 9, list(4)),
        nodes(Request { path: vec![0; 24], ..Request::of(what::MARKED) }, 1, Answered),
        name(0, ROOT, 0, Answered),
        name(1, FILE, INODE, Answered),
        name(2, ROOT, list(4), Answered),
        name(3, ROOT, list(3), Answered),
        name(4, LINK, INODE + list(1) + list(1), Answered),
    ];
    group("nodes of calls", vec![(rounds_image(), cases)])
}

/// Up to the refusal.
fn refused() -> Group {
    let not_utf8 = Request { path: vec![0xff], ..Request::of(what::LOOKUP) };
    let absent = Request { volume: 1, ..Request::of(what::LIST) };
    let marked = Request { path: vec![0xff; 24], ..Request::of(what::MARKED) };
    let cases = vec![
        nodes(not_utf8, OPENED, Refused(5)),
        lookup("dir/nowhere", IN_ROOT + INODE + list(1), Refused(4)),
        lookup("é", IN_ROOT, Refused(9)),
        on(what::READ, PACKED, 0, OPENED + INODE, Refused(3)).into_room(10),
        on(what::READ, ABSENT, 0, OPENED + list(0), Refused(4)).into_room(10),
        on(what::LINK, ROOT, 0, OPENED + ROOT_INODE + list(3), Refused(2)),
        name(5, ROOT, 0, Refused(4)),
        nodes(absent, 1, Refused(4)),
        nodes(marked, 1, Refused(1)),
    ];
    group("nodes of calls that are refused", vec![(rounds_image(), cases)])
}

/// Of lines and lists 6 comes after all reading.
fn short() -> Group {
    let room = |case: Stated, n: usize| case.into_room(n);
    let cases = vec![
        room(nodes(Request::of(what::OPEN), 1, Refused(6)), 3),
        room(lookup("data", IN_ROOT + INODE, Refused(6)), 0),
        room(on(what::ENTRIES, ROOT, 0, OPENED + list(4), Refused(6)), 0),
        room(on(what::XATTR_BYTES, ROOT, 1, OPENED + list(3) + list(1), Refused(6)), 4),
        room(on(what::LINK, LINK, 0, OPENED + INODE + list(1) + list(1), Refused(6)), 3),
        room(mark(ROOT, 9, 0, list(1)).refused(6), 23),
        room(measure(LISTED, Refused(6)), 4),
    ];
    group("nodes of calls whose buffer is too short", vec![(rounds_image(), cases)])
}

/// With the block of a kind that stands at this place among them changed, its checksum right again.
fn one(image: &[u8], is: Is, place: usize, change: impl Fn(&mut [u8])) -> Vec<u8> {
    let mut out = image.to_vec();
    let block = out.chunks_exact_mut(BLOCK).skip(1).filter(|b| is(b)).nth(place).expect("such a block");
    change(block);
    seal(block);
    out
}

/// A child of another level has passed as a node; one that has not is not counted.
fn trees() -> Group {
    let whole = rounds_image();
    let root = |n: u64, number: u64| vec![lookup("", n, Refused(number))];
    let child = |change: fn(&mut [u8])| changed(&whole, TREE_NODE, change);
    let of_root = |change: fn(&mut [u8])| changed(&whole, TREE_ROOT, change);
    // The tree's root, and the map's for its first child.
    let before = OPENED + 1 + 1;
    let cases = vec![
        (child(|b| put16(b, LEVEL, 1)), root(before + 1, 2)),
        (of_root(|b| put16(b, LEVEL, 2)), root(before + 1, 2)),
        (unsealed(&whole, TREE_NODE), root(before, 2)),
        (child(|b| put16(b, LEVEL, 33)), root(before, 2)),
        (child(|b| put16(b, FLAGS, get16(b, FLAGS) | 8)), root(before, 3)),
        (of_root(|b| put16(b, FLAGS, 0)), root(OPENED, 2)),
        (unsealed(&whole, TREE_ROOT), root(OPENED - 1, 2)),
    ];
    group("nodes of another level, and blocks that are none", cases)
}

/// A leaf of a map's tree below its root.
const MAP_LEAF: Is = |b| get32(b, 28) == OMAP && get16(b, FLAGS) & 3 == 2;

/// Two volumes, each in a leaf of its own of the container's map.
fn two() -> Vec<u8> {
    let mut plan = plan(contents(vec![file(ROOT)]));
    let second = Volume { oid: 1027, ..plan.volumes[0].clone() };
    plan.volumes.push(second);
    (plan.slots, plan.history) = (vec![1026, 1027], false);
    (plan.map.leaf, plan.map.index) = (1, 2);
    make(plan).image
}

/// The roots of maps: the volumes' come first, the container's last.
fn maps() -> Group {
    let whole = two();
    let container = 2;
    let cases = |n: u64, said: fn() -> Said| vec![nodes(Request { volume: 1, ..Request::of(what::LOOKUP) }, n, said())];
    let levelled = changed(&whole, MAP_LEAF, |b| put16(b, LEVEL, 1));
    let no_root = |place: usize| one(&whole, MAP_ROOT, place, |b| put32(b, BLOCK - 40, 0));
    let open = |n: u64, said: Said| vec![nodes(Request::of(what::OPEN), n, said)];
    let first = |n: u64| vec![nodes(Request::of(what::LOOKUP), n, Refused(2))];
    let all = vec![
        (whole.clone(), cases(OPENED + 1 + 1, || Answered)),
        (levelled, cases(3, || Refused(2))),
        (unsealed(&whole, MAP_LEAF), cases(2, || Refused(2))),
        (no_root(container), open(1, Refused(2))),
        (unsealed(&whole, MAP_ROOT), open(0, Refused(2))),
        (no_root(0), first(4)),
        (one(&whole, OBJECT_MAP, 0, |b| put64(b, 48, 0)), first(3)),
    ];
    group("nodes of object maps", all)
}

/// Refused openings, and images of which nothing is read.
fn openings() -> Group {
    let sealed = image(Contents { sealed: true, ..contents(vec![file(ROOT)]) });
    let each = |n: u64, number: u64| vec![nodes(Request::of(what::LIST), n, Refused(number))];
    let cases = vec![
        (sealed, each(2, 3)),
        (vec![0; 8192], each(0, 11)),
        (Vec::new(), each(0, 1)),
        (around(&empty()), vec![lookup("", OPENED + 1, Answered), listing(OPENED + 4, Answered)]),
    ];
    group("nodes of openings", cases)
}

/// At the number before the latest an empty root in one node, and a directory since.
fn saved() -> Vec<u8> {
    let mut plan: Plan = plan(contents(vec![directory(ROOT, &[("a", 20)]), file(20)]));
    let before = Volume { contents: contents(vec![file(ROOT)]), ..plan.volumes[0].clone() };
    plan.saves = vec![Save { xid: LATEST - 1, volumes: vec![before] }];
    plan.ring.checkpoints[2..].iter_mut().for_each(|c| c.current = true);
    make(plan).image
}

fn checkpoints() -> Group {
    let at = |numbered: u64, xid: u64, n: u64, said: Said| {
        nodes(Request { numbered, xid, path: b"a".to_vec(), ..Request::of(what::LOOKUP) }, n, said)
    };
    // The root's inode, its entries, and the inode that is found.
    let now = OPENED + 3;
    let cases = vec![
        at(0, 0, now, Answered),
        at(0, LATEST - 1, now, Answered),
        at(1, LATEST, now, Answered),
        at(1, LATEST - 1, now - 1, Refused(4)),
        at(2, LATEST - 1, now - 1, Refused(4)),
        at(1 << 32, LATEST - 1, now - 1, Refused(4)),
        at(1, LATEST + 1, 0, Refused(13)),
    ];
    group("nodes at earlier checkpoints", vec![(saved(), cases)])
}
