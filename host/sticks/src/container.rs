//! The whole container: from a plan to the image.

use crate::block::{put32, put64, seal, OMAP, PHYSICAL};
use crate::checkpoint;
use crate::disk::Disk;
use crate::omap::{self, Mapping, ENCRYPTED};
use crate::plan::{Odd, Plan};
use crate::random::Random;
use crate::superblock::{Superblock, SLOTS};
use crate::volume::{self, Volume};

/// An image and the plan that it was made from.
pub struct Stick {
    pub plan: Plan,
    pub image: Vec<u8>,
    pub block_count: u64,
}

impl Stick {
    pub fn from_seed(seed: u64) -> Stick {
        make(Plan::draw(seed))
    }

    /// The volumes' object ids as opening must give them.
    pub fn volume_ids(&self) -> Vec<u64> {
        let seen = (self.plan.max_file_systems as usize).min(SLOTS);
        self.plan.slots.iter().take(seen).copied().filter(|&oid| oid != 0).collect()
    }
}

pub fn make(plan: Plan) -> Stick {
    let mut random = plan.random.clone();
    let mut disk = Disk::new(plan.block_size, plan.gaps, random.fork());
    let early = plan.ring_first.then(|| disk.take(u64::from(plan.ring.blocks)));
    let mappings = if plan.saves.is_empty() {
        objects(&plan, &mut disk, &mut random)
    } else {
        saved_objects(&plan, &mut disk, &mut random)
    };
    let (map, root) = omap::write(mappings, plan.xid, &mut disk, &mut plan.map.clone());
    let base = early.unwrap_or_else(|| disk.take(u64::from(plan.ring.blocks)));
    let apart = plan.ring.checkpoints.iter().filter(|c| c.apart).count() as u64;
    // Maps that stand apart, and what gaps may come before each.
    let reserve = apart * (u64::from(plan.ring.blocks) + 2);
    let block_count = disk.blocks() + reserve + plan.spare;
    let usual = superblock(&plan, map, base, block_count);
    checkpoint::write(&plan.ring, base, &usual, &mut disk, &mut random);
    let zero = block_zero(&plan, &usual, root, &mut random);
    disk.put(0, &zero);
    let image = finish(&plan, disk, block_count, &mut random);
    Stick { plan, image, block_count }
}

/// The volumes, as the container's object map has them.
fn objects(plan: &Plan, disk: &mut Disk, random: &mut Random) -> Vec<Mapping> {
    let objects: Vec<(u64, u64)> =
        plan.volumes.iter().map(|v| (v.oid, volume::write(v, plan.xid, plan.history, disk))).collect();
    // Of a volume's superblock, the flag of encrypted objects says nothing to a reader.
    match plan.history {
        true => omap::history(&objects, plan.xid, &[0, 0x2, ENCRYPTED, 0x10], random),
        false => omap::current(&objects, plan.xid),
    }
}

/// The volumes in each of their states: one map has them all, and the transaction number tells them apart.
fn saved_objects(plan: &Plan, disk: &mut Disk, random: &mut Random) -> Vec<Mapping> {
    let mut out = Vec::new();
    for v in &plan.volumes {
        let before = plan.saves.iter().filter_map(|s| Some((s.xid, s.volumes.iter().find(|w| w.oid == v.oid)?)));
        let states: Vec<(u64, &Volume)> = before.chain([(plan.xid, v)]).collect();
        let mut last = None;
        for (xid, block) in volume::write_states(&states, disk) {
            out.extend(omap::since(last, &[(v.oid, block)], xid, random));
            last = Some(xid);
        }
    }
    out
}

fn superblock(plan: &Plan, map: u64, base: u64, block_count: u64) -> Superblock {
    Superblock {
        xid: plan.xid,
        block_size: plan.block_size as u32,
        block_count,
        incompat: match plan.odd {
            Some(Odd::Version1) => 0x1,
            Some(Odd::Fusion) => 0x102,
            _ => 0x2,
        },
        desc_blocks: plan.ring.blocks,
        desc_base: base,
        omap: match plan.odd {
            Some(Odd::MapOutside) => block_count,
            Some(Odd::MapAtZero) => 0,
            _ => map,
        },
        max_file_systems: plan.max_file_systems,
        slots: plan.slots.clone(),
        ..Superblock::default()
    }
}

/// Block size, block count and ring are right; all else may be stale, the checksum too.
fn block_zero(plan: &Plan, usual: &Superblock, root: u64, random: &mut Random) -> Vec<u8> {
    let mut sb = if plan.stale_zero { usual.other(random) } else { usual.clone() };
    (sb.block_size, sb.block_count) = (usual.block_size, usual.block_count);
    (sb.desc_base, sb.desc_blocks) = (usual.desc_base, usual.desc_blocks);
    match plan.odd {
        Some(Odd::BlockSize(n)) => sb.block_size = n,
        Some(Odd::RingTree) => sb.desc_blocks |= 0x8000_0000,
        Some(Odd::RingPast) => sb.desc_base += sb.block_count,
        Some(Odd::RingZero) => {
            sb.desc_blocks = 0;
            sb.desc_base = random.pick(&[usual.desc_base, 0, usual.block_count, usual.block_count + 1, 1 << 40]);
        }
        Some(Odd::CutZero(_)) => (sb.desc_base, sb.desc_blocks) = (0, random.pick(&[0, 0x8000_0001])),
        _ => {}
    }
    let mut b = sb.bytes(plan.block_size);
    match plan.odd {
        Some(Odd::NoMagic) => put32(&mut b, 32, random.pick(&[0, 0x4253_5041, 0x4e58_5342])),
        Some(Odd::MapAtZero) => {
            put32(&mut b, 24, OMAP | PHYSICAL);
            put64(&mut b, 48, root);
        }
        _ => {}
    }
    seal(&mut b);
    if plan.stale_zero && plan.odd != Some(Odd::MapAtZero) {
        b[random.place(8)] ^= 0x10;
    }
    b
}

fn finish(plan: &Plan, disk: Disk, block_count: u64, random: &mut Random) -> Vec<u8> {
    let mut image = disk.into_image();
    if plan.counted_blocks_present {
        image.resize(block_count as usize * plan.block_size, 0);
    }
    image.extend(random.bytes(plan.tail));
    if let Some(Odd::Cut(n) | Odd::CutZero(n)) = plan.odd {
        image.truncate(n.min(image.len()));
    }
    image
}
