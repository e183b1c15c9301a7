//! Object maps: mappings of (oid, xid) to a block, in a tree of their own.

use crate::block::{header, put32, put64, seal, BTREE, OMAP, PHYSICAL};
use crate::disk::Disk;
use crate::node::{Info, Record};
use crate::random::Random;
use crate::tree::{grow, Ids, Place, Shape};

pub const DELETED: u32 = 0x1;
pub const ENCRYPTED: u32 = 0x4;

const PHYSICAL_TREE: u32 = 0x10;
const ENCRYPTED_OBJECT: u32 = 0x1000_0000;

#[derive(Clone, Debug)]
pub struct Mapping {
    pub oid: u64,
    pub xid: u64,
    pub flags: u32,
    pub size: u32,
    pub block: u64,
    pub ghost: bool,
}

impl Mapping {
    fn new(oid: u64, xid: u64, block: u64) -> Self {
        Mapping { oid, xid, flags: 0, size: 4096, block, ghost: false }
    }

    fn record(&self) -> Record {
        let key = [self.oid.to_le_bytes(), self.xid.to_le_bytes()].concat();
        if self.ghost {
            return Record::ghost(key);
        }
        let value = [&self.flags.to_le_bytes()[..], &self.size.to_le_bytes(), &self.block.to_le_bytes()].concat();
        Record::new(key, value)
    }
}

/// Each object as of `xid` alone.
pub fn current(objects: &[(u64, u64)], xid: u64) -> Vec<Mapping> {
    objects.iter().map(|&(oid, block)| Mapping::new(oid, xid, block)).collect()
}

/// Each object as of some transaction after `before`, and up to `xid`.
pub fn since(before: Option<u64>, objects: &[(u64, u64)], xid: u64, random: &mut Random) -> Vec<Mapping> {
    let first = before.map_or(xid.saturating_sub(3), |b| b + 1);
    objects.iter().map(|&(oid, block)| Mapping::new(oid, random.between(first, xid), block)).collect()
}

/// Each object as of `xid`, with some of `flags`, among older and later versions and objects that nobody asks for.
pub fn history(objects: &[(u64, u64)], xid: u64, flags: &[u32], random: &mut Random) -> Vec<Mapping> {
    let mut out = Vec::new();
    for &(oid, block) in objects {
        let now = xid - random.below(xid.min(5) + 1);
        let mut current = Mapping::new(oid, now, block);
        current.flags = if random.chance(1, 2) { 0 } else { random.pick(flags) };
        out.push(current);
        if now > 0 && random.chance(1, 3) {
            out.push(stranger(oid, random.below(now), random));
        }
        if xid < u64::MAX && random.chance(1, 4) {
            out.push(stranger(oid, xid + 1 + random.below((u64::MAX - xid).min(9)), random));
        }
    }
    let ends = objects.iter().map(|o| o.0).min().zip(objects.iter().map(|o| o.0).max());
    let (low, high) = ends.unwrap_or((1, 1));
    for _ in 0..random.below(4) {
        let below = low > 0 && random.chance(1, 2);
        let oid = if below { random.below(low) } else { high + 1 + random.below(50) };
        out.push(stranger(oid, random.below(xid.saturating_add(3).max(1)), random));
    }
    out
}

/// A version that must not be taken, or whose object is of no account.
fn stranger(oid: u64, xid: u64, random: &mut Random) -> Mapping {
    let mut m = Mapping::new(oid, xid, random.below(40));
    m.flags = random.pick(&[0, 0, DELETED, ENCRYPTED]);
    m.ghost = random.chance(1, 6);
    m
}

/// Writes the map and its tree; the map's block and its root's.
pub fn write(mut mappings: Vec<Mapping>, xid: u64, disk: &mut Disk, shape: &mut Shape) -> (u64, u64) {
    mappings.sort_by_key(|m| (m.oid, m.xid));
    mappings.dedup_by_key(|m| (m.oid, m.xid));
    let records = mappings.iter().map(Mapping::record).collect();
    let tree = grow(records, disk.block_size, shape);
    let at = disk.take(1);
    let info = Info { flags: PHYSICAL_TREE, key_size: 16, value_size: 16, ..Info::default() };
    let mut place = Place { disk, ids: Ids::Physical, xid, subtype: OMAP, info };
    let (root, _) = place.write(&tree, shape);
    let mut b = disk.empty_block();
    // Readers go by the low 16 bits.
    let storage = shape.random.pick(&[PHYSICAL, PHYSICAL, PHYSICAL, 0, PHYSICAL | ENCRYPTED_OBJECT]);
    let storage = if shape.typed { PHYSICAL } else { storage };
    header(&mut b, at, xid, OMAP | storage, 0);
    put32(&mut b, 40, BTREE | PHYSICAL);
    put32(&mut b, 44, BTREE | PHYSICAL);
    put64(&mut b, 48, root);
    seal(&mut b);
    disk.put(at, &b);
    (at, root)
}
