//! The checkpoint descriptor ring: superblocks and the maps before them.

use crate::block::{header, put32, put64, seal, CHECKPOINT_MAP, EPHEMERAL, PHYSICAL};
use crate::disk::Disk;
use crate::random::Random;
use crate::superblock::Superblock;

const LAST: u32 = 0x1;
const ENTRY: usize = 40;

/// Why a checkpoint is not to be taken.
#[derive(Clone, Copy, Debug, PartialEq, Eq)]
pub enum Fault {
    Checksum,
    Magic,
    Kind,
    MapChecksum,
    MapKind,
    MapXid,
    MapCount,
    /// More maps are said to be there than are.
    Length,
    /// The maps are said to stand outside the container.
    Address,
}

#[derive(Clone, Debug)]
pub struct Checkpoint {
    pub xid: u64,
    /// How many map blocks it has.
    pub maps: u32,
    /// Which of them is marked as the last.
    pub last: Option<u32>,
    pub length: u32,
    /// Whether the maps stand outside the ring, at a base of their own.
    pub apart: bool,
    /// How many times round the ring the index is counted.
    pub turns: u32,
    pub fault: Option<Fault>,
    /// Whether its slots and object map are the plan's.
    pub current: bool,
}

impl Checkpoint {
    /// How many ring blocks it takes.
    pub fn blocks(&self) -> u32 {
        1 + if self.apart { 0 } else { self.maps }
    }

    /// How many of its maps are read.
    pub fn read(&self) -> u32 {
        let marked = self.last.map_or(self.maps, |l| (l + 1).min(self.maps));
        marked.min(self.length.saturating_sub(1))
    }
}

#[derive(Clone, Debug)]
pub struct Ring {
    pub blocks: u32,
    /// The place of the first checkpoint's first block.
    pub start: u32,
    pub checkpoints: Vec<Checkpoint>,
}

impl Ring {
    /// Each checkpoint with the places of its first block and its superblock.
    pub fn places(&self) -> Vec<(u32, u32)> {
        let (mut at, mut out) = (self.start, Vec::new());
        for c in &self.checkpoints {
            let end = at + c.blocks();
            out.push((at % self.blocks, (end - 1) % self.blocks));
            at = end;
        }
        out
    }
}

/// Writes the ring at `base`. `usual` is the superblock of a current checkpoint.
pub fn write(ring: &Ring, base: u64, usual: &Superblock, disk: &mut Disk, random: &mut Random) {
    fill(ring, base, disk, random);
    for (c, (first, place)) in ring.checkpoints.iter().zip(ring.places()) {
        let mut sb = if c.current { usual.clone() } else { usual.other(random) };
        (sb.xid, sb.desc_length) = (c.xid, c.length);
        let map_base = if c.apart { disk.take(u64::from(ring.blocks)) } else { base };
        sb.desc_base = map_base;
        sb.desc_index = first + c.turns * ring.blocks;
        if c.fault == Some(Fault::Address) {
            sb.desc_base = random.pick(&[0, usual.block_count, usual.block_count + 7, 1 << 40, u64::MAX >> 13]);
            sb.desc_index = 0;
        }
        let spoiled = random.below(u64::from(c.read().max(1))) as u32;
        for k in 0..c.maps {
            let at = map_base + u64::from((first + k) % ring.blocks);
            let fault = match k {
                k if k >= c.read() => random.pick(&[None, Some(Fault::MapChecksum), Some(Fault::MapKind)]),
                k if k == spoiled => c.fault,
                _ => None,
            };
            let b = map(c, k, fault, disk.block_size, random);
            disk.put(at, &b);
        }
        let b = candidate(&sb, c.fault, disk.block_size, random);
        disk.put(base + u64::from(place), &b);
    }
}

fn candidate(sb: &Superblock, fault: Option<Fault>, block_size: usize, random: &mut Random) -> Vec<u8> {
    let mut b = sb.bytes(block_size);
    match fault {
        Some(Fault::Magic) => put32(&mut b, 32, random.pick(&[0, 0x4253_584f, u32::MAX])),
        Some(Fault::Kind) => put32(&mut b, 24, random.pick(&[0, 2, 0x8000_000c, 0x0001_0000])),
        _ => {}
    }
    seal(&mut b);
    if fault == Some(Fault::Checksum) {
        b[random.place(block_size)] ^= 1 << random.below(8);
    }
    b
}

fn map(c: &Checkpoint, k: u32, fault: Option<Fault>, block_size: usize, random: &mut Random) -> Vec<u8> {
    let most = (block_size - ENTRY) / ENTRY;
    let count = random.pick(&[0, 1, 1, 2, 3, most]);
    let mut b = vec![0; block_size];
    header(&mut b, 100 + u64::from(k), c.xid, CHECKPOINT_MAP | PHYSICAL, 0);
    put32(&mut b, 32, if c.last == Some(k) { LAST } else { random.pick(&[0, 0, 2]) });
    put32(&mut b, 36, count as u32);
    for i in 0..count {
        put32(&mut b, 40 + i * ENTRY, EPHEMERAL | 5);
        put32(&mut b, 48 + i * ENTRY, block_size as u32);
        put64(&mut b, 64 + i * ENTRY, 1000 + i as u64);
        put64(&mut b, 72 + i * ENTRY, random.below(200));
    }
    match fault {
        Some(Fault::MapKind) => put32(&mut b, 24, random.pick(&[0x4000_0001, 0x4000_000b, 0])),
        Some(Fault::MapXid) => put64(&mut b, 16, random.pick(&[c.xid ^ 1, c.xid.wrapping_sub(1), !c.xid])),
        Some(Fault::MapCount) => put32(&mut b, 36, random.pick(&[most as u32 + 1, 1 << 16, u32::MAX])),
        _ => {}
    }
    seal(&mut b);
    if fault == Some(Fault::MapChecksum) {
        b[random.place(block_size)] ^= 1 << random.below(8);
    }
    b
}

/// What stands in the ring where no checkpoint does.
fn fill(ring: &Ring, base: u64, disk: &mut Disk, random: &mut Random) {
    for i in 0..u64::from(ring.blocks) {
        let mut b = disk.empty_block();
        match random.below(4) {
            0 => b = random.bytes(disk.block_size),
            1 => {
                let xid = random.below(1 << 20);
                header(&mut b, 1, xid, CHECKPOINT_MAP | PHYSICAL, 0);
                seal(&mut b);
            }
            _ => {}
        }
        disk.put(base + i, &b);
    }
}
