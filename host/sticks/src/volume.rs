//! A volume: its tree, its object map and its superblock.

use crate::block::{header, put, put32, put64, seal, BTREE, FS, FSTREE};
use crate::contents::Contents;
use crate::disk::Disk;
use crate::node::Info;
use crate::omap::{self, Mapping, DELETED, ENCRYPTED};
use crate::random::Random;
use crate::record;
use crate::tree::{grow, Ids, Place, Shape};

const MAGIC: &[u8; 4] = b"APSB";
pub const LABEL: usize = 256;
const CASE_INSENSITIVE: u64 = 0x1;
const NORMALIZATION_INSENSITIVE: u64 = 0x8;
const SEALED: u64 = 0x20;
const UNENCRYPTED: u64 = 0x1;

/// Times any block size it passes 2^64.
pub const FAR: u64 = 1 << 52;

/// What is wrong with the mapping of one node of the tree.
#[derive(Clone, Copy, Debug, PartialEq, Eq)]
pub enum Lost {
    Deleted,
    Ghost,
    Encrypted,
    Missing,
    /// Said to stand at a block whose byte's address has more than 64 bits.
    Far,
}

#[derive(Clone, Debug)]
pub struct Volume {
    pub oid: u64,
    pub contents: Contents,
    /// The tree's nodes are numbered from here.
    pub first_node: u64,
    pub tree: Shape,
    pub map: Shape,
    /// Sizes of keys and values in the tree's nodes of one size; 0 for no such nodes.
    pub fixed: (u32, u32),
    pub lost: Option<Lost>,
    /// Whether two records of the tree change places.
    pub muddled: bool,
    pub random: Random,
}

impl Volume {
    /// Whether the plan's contents must be found.
    pub fn is_regular(&self) -> bool {
        self.contents.regular && self.lost.is_none() && !self.muddled
    }
}

/// Writes all of it, with older and later versions of its objects if there is a `history`; the superblock's block.
pub fn write(v: &Volume, xid: u64, history: bool, disk: &mut Disk) -> u64 {
    let mut random = v.random.clone();
    let (root, mapped) = tree(v, xid, disk, &mut random);
    let mappings = match history {
        true => omap::history(&mapped, xid, &[0, 0x2, 0x8, 0x10], &mut random),
        false => omap::current(&mapped, xid),
    };
    let mappings = spoiled(v, mappings, &mapped, &mut random);
    let map = omap::write(mappings, xid, disk, &mut v.map.clone()).0;
    put_superblock(v, xid, map, root, disk)
}

/// Writes the states of one volume, oldest first, with one object map for all of them: the transaction number tells
/// the states apart. Each state's number and its superblock's block.
pub fn write_states(states: &[(u64, &Volume)], disk: &mut Disk) -> Vec<(u64, u64)> {
    let Some(&(last, v)) = states.last() else { return Vec::new() };
    let (mut mappings, mut roots, mut before) = (Vec::new(), Vec::new(), None);
    for &(xid, v) in states {
        let mut random = v.random.clone();
        let (root, mapped) = tree(v, xid, disk, &mut random);
        let since = omap::since(before, &mapped, xid, &mut random);
        mappings.extend(spoiled(v, since, &mapped, &mut random));
        roots.push(root);
        before = Some(xid);
    }
    let map = omap::write(mappings, last, disk, &mut v.map.clone()).0;
    let put = |(&(xid, v), root)| (xid, put_superblock(v, xid, map, root, disk));
    states.iter().zip(roots).map(put).collect()
}

/// Writes the tree; its root's id, and each node's id with its block.
fn tree(v: &Volume, xid: u64, disk: &mut Disk, random: &mut Random) -> (u64, Vec<(u64, u64)>) {
    let mut records = record::all(&v.contents, disk);
    if v.muddled && records.len() > 1 {
        let (a, b) = (random.place(records.len()), random.place(records.len()));
        records.swap(a, b);
    }
    let mut shape = v.tree.clone();
    let tree = grow(records, disk.block_size, &mut shape);
    let info = Info { key_size: v.fixed.0, value_size: v.fixed.1, ..Info::default() };
    let ids = Ids::Virtual { next: v.first_node, mapped: Vec::new() };
    let node_xid = xid - random.below(xid.min(3) + 1);
    let mut place = Place { disk, ids, xid: node_xid, subtype: FSTREE, info };
    let (root, _) = place.write(&tree, &mut shape);
    let Ids::Virtual { mapped, .. } = place.ids else { unreachable!("the tree is virtual") };
    (root, mapped)
}

fn put_superblock(v: &Volume, xid: u64, map: u64, root: u64, disk: &mut Disk) -> u64 {
    let at = disk.take(1);
    let b = superblock(v, xid, map, root, disk.block_size);
    disk.put(at, &b);
    at
}

/// The mappings with the plan's fault.
fn spoiled(v: &Volume, mut mappings: Vec<Mapping>, mapped: &[(u64, u64)], random: &mut Random) -> Vec<Mapping> {
    let Some(lost) = v.lost else { return mappings };
    let (oid, _) = random.pick(mapped);
    for m in mappings.iter_mut().filter(|m| m.oid == oid) {
        match lost {
            Lost::Deleted => m.flags |= DELETED,
            Lost::Ghost => m.ghost = true,
            Lost::Encrypted => m.flags |= ENCRYPTED,
            Lost::Missing => {}
            Lost::Far => m.block = FAR,
        }
    }
    if lost == Lost::Missing {
        mappings.retain(|m| m.oid != oid);
    }
    mappings
}

fn superblock(v: &Volume, xid: u64, map: u64, root: u64, block_size: usize) -> Vec<u8> {
    let c = &v.contents;
    let bit = |yes: bool, flag: u64| if yes { flag } else { 0 };
    let mut b = vec![0; block_size];
    header(&mut b, v.oid, xid, FS, 0);
    put(&mut b, 32, MAGIC);
    let incompat = bit(c.case_insensitive, CASE_INSENSITIVE)
        | bit(c.normalization_insensitive, NORMALIZATION_INSENSITIVE)
        | bit(c.sealed, SEALED);
    put64(&mut b, 56, incompat);
    put32(&mut b, 116, BTREE);
    put64(&mut b, 128, map);
    put64(&mut b, 136, root);
    put64(&mut b, 176, 1 << 20);
    put64(&mut b, 184, c.files.len() as u64);
    put64(&mut b, 264, bit(!c.encrypted, UNENCRYPTED));
    put(&mut b, 272, b"sticks");
    put(&mut b, 704, &c.label);
    seal(&mut b);
    b
}
