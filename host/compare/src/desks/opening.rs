//! Document 01, "Opening, in order", as far as nodes are gone through in it: which checkpoint is taken, its object map,
//! and a volume's superblock, map and tree.

use sticks::block::{get32, get64, CHECKPOINT_MAP, FS};

use crate::checkpoints::spoiled::candidates;
use crate::maps::node::Disk;
use crate::opening::outside::ring;
use crate::trees::{Map, Tree, Walker};

const LAST: u32 = 0x1;
/// A checkpoint map's head, and so many bytes for each of its entries.
const ENTRY: u64 = 40;
const VERSION_1: u64 = 0x1;
const FUSION: u64 = 0x100;
const SLOTS: usize = 100;
const UNENCRYPTED: u64 = 0x1;
const SEALED: u64 = 0x20;

pub struct Container<'a> {
    superblock: &'a [u8],
    map: Map<'a>,
}

pub struct Volume<'a> {
    pub superblock: &'a [u8],
    pub tree: Tree<'a>,
}

/// Of the latest accepted candidate, or of the earliest of those that have the number.
pub fn superblock(part: &[u8], checkpoint: Option<u64>) -> Option<&[u8]> {
    let ((size, blocks, _), disk) = (ring(part)?, Disk::of(part)?);
    let mut all = candidates(part);
    match checkpoint {
        Some(xid) => all.retain(|c| c.xid == xid),
        None => all.sort_by_key(|c| std::cmp::Reverse(c.xid)),
    }
    let mut superblocks = all.iter().map(|c| &part[c.at..c.at + size as usize]);
    superblocks.find(|sb| is_accepted(&disk, sb, blocks))
}

/// "if each of the first (descriptor length − 1) ring blocks, up to one with flag 0x1, is intact, of kind 0x0c, of the
/// same xid, and holds its counted 40-byte entries".
fn is_accepted(disk: &Disk, superblock: &[u8], ring: u64) -> bool {
    let (base, index, length) = (get64(superblock, 112), get32(superblock, 136), get32(superblock, 140));
    // Once round the ring the same blocks come again.
    for k in 0..u64::from(length.saturating_sub(1)).min(ring) {
        let block = base.checked_add((u64::from(index) + k) % ring);
        let Some(map) = block.and_then(|block| disk.object(block)) else { return false };
        let is_map = get32(map, 24) & 0xffff == CHECKPOINT_MAP && get64(map, 16) == get64(superblock, 16);
        if !is_map || ENTRY + ENTRY * u64::from(get32(map, 36)) > map.len() as u64 {
            return false;
        }
        if get32(map, 32) & LAST != 0 {
            break;
        }
    }
    true
}

impl<'a> Container<'a> {
    pub fn open(superblock: &'a [u8], walker: &mut Walker<'a>) -> Option<Container<'a>> {
        if get64(superblock, 64) & (VERSION_1 | FUSION) != 0 {
            return None;
        }
        let map = walker.map(get64(superblock, 160), get64(superblock, 16))?;
        Some(Container { superblock, map })
    }

    fn volumes(&self) -> Vec<u64> {
        let slots = (get32(self.superblock, 180) as usize).min(SLOTS);
        (0..slots).map(|i| get64(self.superblock, 184 + 8 * i)).filter(|&oid| oid != 0).collect()
    }

    pub fn volume(&self, index: u64, walker: &mut Walker<'a>) -> Option<Volume<'a>> {
        let oid = *self.volumes().get(usize::try_from(index).ok()?)?;
        let block = walker.mapped(&self.map, oid)?.block;
        let superblock = walker.disk.object(block)?;
        let is_volume = get32(superblock, 24) & 0xffff == FS && superblock[32..36] == *b"APSB";
        if !is_volume || get64(superblock, 264) & UNENCRYPTED == 0 || get64(superblock, 56) & SEALED != 0 {
            return None;
        }
        let map = walker.map(get64(superblock, 128), get64(self.superblock, 16))?;
        let tree = walker.tree(map, get64(superblock, 136))?;
        Some(Volume { superblock, tree })
    }
}
