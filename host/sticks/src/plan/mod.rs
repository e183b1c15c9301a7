//! What a stick holds, drawn from a seed.

mod data;
mod files;
mod keys;
pub mod large;
mod names;
mod otherwise;
mod patched;
pub mod places;
mod proper;
mod ring;
mod sample;
mod saves;
mod shape;

use crate::checkpoint::Ring;
use crate::contents::Contents;
use crate::random::Random;
use crate::superblock::SLOTS;
use crate::tree::{Shape, Sizes};
use crate::volume::{Lost, Volume, FAR};

const LARGER_BLOCKS: [usize; 5] = [8192, 8192, 16384, 32768, 65536];

/// Why a stick is not to be opened.
#[derive(Clone, Copy, Debug, PartialEq, Eq)]
pub enum Odd {
    NoMagic,
    BlockSize(u32),
    RingTree,
    RingPast,
    RingZero,
    NoCheckpoint,
    Version1,
    Fusion,
    MapOutside,
    /// The object map is said to stand in block 0, and block 0 passes as one.
    MapAtZero,
    /// So many bytes of block 0 alone, and a ring of none, or one that is a tree.
    CutZero(usize),
    /// So many bytes of the image alone.
    Cut(usize),
}

#[derive(Clone, Debug)]
pub struct Plan {
    pub seed: u64,
    pub block_size: usize,
    /// One in so many grants of blocks leaves a gap; 0 for none.
    pub gaps: u64,
    pub xid: u64,
    pub ring: Ring,
    /// Whether the ring stands before the volumes.
    pub ring_first: bool,
    pub stale_zero: bool,
    /// Whether object maps hold older and later versions.
    pub history: bool,
    pub volumes: Vec<Volume>,
    /// Earlier states, oldest first.
    pub saves: Vec<Save>,
    pub slots: Vec<u64>,
    pub max_file_systems: u32,
    pub map: Shape,
    /// Blocks counted past the last one in use.
    pub spare: u64,
    pub counted_blocks_present: bool,
    /// Bytes after the last block.
    pub tail: usize,
    pub odd: Option<Odd>,
    pub random: Random,
}

/// The volumes as of a transaction. One that is not there was made later.
#[derive(Clone, Debug)]
pub struct Save {
    pub xid: u64,
    pub volumes: Vec<Volume>,
}

impl Plan {
    pub fn draw(seed: u64) -> Plan {
        let mut plan = Plan::mixed(seed);
        plan.volumes.iter_mut().for_each(|v| keys::form(&mut v.contents));
        plan
    }

    /// The same stick with directory keys of either form on any volume, as the Rust takes them. What is recorded of
    /// drawn sticks is of these.
    pub fn mixed(seed: u64) -> Plan {
        let mut r = Random::new(seed);
        let odd = r.chance(1, 10).then(|| odd(&mut r));
        let small = !matches!(odd, Some(Odd::CutZero(_))) && r.chance(3, 4);
        let block_size = if small { 4096 } else { r.pick(&LARGER_BLOCKS) };
        let xid = transaction(&mut r);
        let volumes = volumes(block_size, &mut r);
        Plan::around(volumes, seed, block_size, xid, odd, r)
    }

    /// Another stick that shows the same, though its volumes stand otherwise in its image.
    pub fn relaid(&self, seed: u64) -> Plan {
        let mut r = Random::new(seed);
        let block_size = if r.chance(1, 2) { 4096 } else { r.pick(&LARGER_BLOCKS) };
        let xid = transaction(&mut r);
        let first = r.between(2, 5000);
        let again = |(i, v): (usize, &Volume)| {
            let contents = otherwise::contents(&v.contents, &mut r);
            Volume { contents, lost: None, muddled: false, ..volume(first + 7 * i as u64, 4096, &mut r) }
        };
        let volumes = self.volumes.iter().enumerate().map(again).collect();
        Plan::around(volumes, seed, block_size, xid, None, r)
    }

    /// The same stick with names that a lossy reading patches up, or that only look so.
    pub fn patched(&self) -> Plan {
        let mut r = Random::new(!self.seed);
        let mut plan = self.clone();
        for v in &mut plan.volumes {
            v.contents = patched::contents(&v.contents, self.block_size, &mut r);
        }
        plan
    }

    /// The same stick with directory keys about the edges of their forms, and some that are not of the volume's.
    pub fn at_edges(&self) -> Plan {
        let mut r = Random::new(self.seed.rotate_left(32));
        let mut plan = self.clone();
        plan.volumes.iter_mut().for_each(|v| v.contents = keys::at_edges(&v.contents, &mut r));
        plan
    }

    /// The same stick after earlier saves, each with a checkpoint of its own.
    pub fn saved(&self) -> Plan {
        let mut r = Random::new(self.seed.rotate_left(16));
        let saves = saves::draw(self, &mut r);
        let xids: Vec<u64> = saves.iter().map(|s| s.xid).chain([self.xid]).collect();
        let ring = ring::saved(&xids, self.odd == Some(Odd::NoCheckpoint), &mut r);
        Plan { saves, ring, ..self.clone() }
    }

    /// All else but what is given is drawn.
    fn around(volumes: Vec<Volume>, seed: u64, block_size: usize, xid: u64, odd: Option<Odd>, mut r: Random) -> Plan {
        let (slots, max_file_systems) = slots(&volumes, &mut r);
        Plan {
            seed,
            block_size,
            gaps: r.pick(&[0, 0, 3, 8]),
            xid,
            ring: ring::draw(xid, odd == Some(Odd::NoCheckpoint), &mut r),
            ring_first: r.chance(3, 4),
            stale_zero: r.chance(1, 2),
            history: true,
            volumes,
            saves: Vec::new(),
            slots,
            max_file_systems,
            map: shape::map(&mut r),
            spare: r.pick(&[0, 0, 1, 2, 1000, 1 << 40, 2 * FAR]),
            counted_blocks_present: r.chance(1, 2),
            tail: r.pick(&[0, 0, 0, 1, 511, 4095]),
            odd,
            random: r.fork(),
        }
        .within_reason()
    }

    /// A container of 4,096-byte blocks that must open, with a ring full of sound checkpoints.
    pub fn with_ring(blocks: u32, seed: u64) -> Plan {
        let mut r = Random::new(seed);
        let volumes = vec![volume(1026, 4096, &mut r)];
        let xid = 100_000;
        Plan {
            seed,
            block_size: 4096,
            gaps: 0,
            xid,
            ring: ring::full(xid, blocks),
            ring_first: true,
            stale_zero: false,
            history: true,
            slots: vec![1026],
            volumes,
            saves: Vec::new(),
            max_file_systems: 100,
            map: shape::map(&mut r),
            spare: 0,
            counted_blocks_present: true,
            tail: 0,
            odd: None,
            random: r,
        }
    }

    /// A container of 4,096-byte blocks with one volume that holds this, in full nodes.
    pub fn with_contents(contents: Contents, seed: u64) -> Plan {
        let mut plan = Plan::with_ring(8, seed);
        let mut r = Random::new(seed);
        plan.map = large::dense(Sizes::Fixed, &mut r);
        plan.volumes = vec![Volume {
            oid: 1026,
            contents,
            first_node: 1000,
            tree: large::dense(Sizes::Variable, &mut r),
            map: large::dense(Sizes::Fixed, &mut r),
            fixed: (0, 0),
            lost: None,
            muddled: false,
            random: r.fork(),
        }];
        plan
    }

    /// A stick of these contents for other readers, who want each superblock and each object's type as they should be
    /// and know of no older versions.
    pub fn proper(contents: &Contents, seed: u64) -> Plan {
        let mut plan = Plan::with_contents(proper::contents(contents), seed);
        let mut r = Random::new(seed);
        let tree = &mut plan.volumes[0].tree;
        (tree.leaf, tree.index) = (r.pick(&[2, 5, 12, 4000]), r.pick(&[2, 3, 6, 4000]));
        Plan { ring: ring::full(plan.xid, 2), history: false, ..plan }
    }

    /// A small stick to try a reader on, always the same.
    pub fn sample() -> Plan {
        let plan = Plan::with_contents(sample::contents(), 1);
        Plan { ring: ring::full(plan.xid, 2), history: false, ..plan }
    }

    /// Blocks that are counted and present are few.
    fn within_reason(mut self) -> Plan {
        if self.volumes.iter().any(|v| v.lost == Some(Lost::Far)) && !self.seed.is_multiple_of(4) {
            self.spare = 2 * FAR;
        }
        if self.odd.is_some() {
            self.spare = self.spare.min(1 << 40); // a ring past the end is to be past the image, no more
        }
        if self.odd == Some(Odd::MapAtZero) {
            // Where an object map has the type of its tree, block 0 has the block count.
            self.spare = 0x4000_0000;
        }
        self.counted_blocks_present &= self.spare < 100;
        self
    }

    /// Whether the container must open.
    pub fn opens(&self) -> bool {
        self.odd.is_none()
    }
}

fn odd(r: &mut Random) -> Odd {
    match r.below(12) {
        0 => Odd::NoMagic,
        1 => Odd::BlockSize(r.pick(&[0, 512, 2048, 4097, 12288, 131_072, u32::MAX])),
        2 => Odd::RingTree,
        3 => Odd::RingPast,
        4 => Odd::RingZero,
        5 => Odd::NoCheckpoint,
        6 => Odd::Version1,
        7 => Odd::Fusion,
        8 => Odd::MapOutside,
        9 => Odd::MapAtZero,
        10 => Odd::CutZero(r.pick(&[4096, 4097, 8191])),
        _ => Odd::Cut(r.pick(&[0, 1, 36, 4095, 4096, 5000, 8192])),
    }
}

fn transaction(r: &mut Random) -> u64 {
    match r.below(12) {
        0 => r.below(4),
        1 => u64::MAX - r.below(4),
        2 => r.draw(),
        _ => r.between(4, 5000),
    }
}

fn volumes(block_size: usize, r: &mut Random) -> Vec<Volume> {
    let first = r.between(2, 5000);
    let count = r.pick(&[0, 1, 1, 1, 1, 1, 1, 2, 2, 3, 4]);
    (0..count).map(|i| volume(first + 7 * i, block_size, r)).collect()
}

fn volume(oid: u64, block_size: usize, r: &mut Random) -> Volume {
    let regular = r.chance(3, 4);
    Volume {
        oid,
        contents: files::draw(block_size, regular, r),
        first_node: r.pick(&[2, 1000, 1 << 40]),
        tree: shape::files(r),
        map: shape::map(r),
        fixed: r.pick(&[(0, 0), (0, 0), (8, 92)]),
        lost: (!regular && r.chance(1, 4))
            .then(|| r.pick(&[Lost::Deleted, Lost::Ghost, Lost::Encrypted, Lost::Missing, Lost::Far, Lost::Far])),
        muddled: !regular && r.chance(1, 6),
        random: r.fork(),
    }
}

/// Slots with zeros between, and how many of them the superblock counts.
fn slots(volumes: &[Volume], r: &mut Random) -> (Vec<u64>, u32) {
    let mut slots = Vec::new();
    for v in volumes {
        let zeros = r.pick(&[0, 0, 0, 1, 3, 24]);
        slots.extend(vec![0; zeros]);
        slots.push(v.oid);
    }
    let used = slots.len() as u32;
    let max = r.pick(&[used, used + 1, SLOTS as u32 - 1, SLOTS as u32, 101, 5000, u32::MAX]).max(used);
    if r.chance(1, 8) && (max as usize) < SLOTS {
        slots.resize(max as usize, 0);
        slots.push(r.draw()); // past the count
    }
    (slots, max)
}
