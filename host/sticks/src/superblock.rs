//! The container superblock.

use crate::block::{header, put, put32, put64, EPHEMERAL, NX_SUPERBLOCK};
use crate::random::Random;

const MAGIC: &[u8; 4] = b"NXSB";
/// So many volume slots have a place in the block.
pub const SLOTS: usize = 100;

#[derive(Clone, Debug, Default)]
pub struct Superblock {
    pub xid: u64,
    pub block_size: u32,
    pub block_count: u64,
    pub incompat: u64,
    pub desc_blocks: u32,
    pub desc_base: u64,
    pub desc_index: u32,
    pub desc_length: u32,
    pub omap: u64,
    pub max_file_systems: u32,
    pub slots: Vec<u64>,
}

impl Superblock {
    /// The block, its checksum still to be written.
    pub fn bytes(&self, block_size: usize) -> Vec<u8> {
        let mut b = vec![0; block_size];
        header(&mut b, 1, self.xid, EPHEMERAL | NX_SUPERBLOCK, 0);
        put(&mut b, 32, MAGIC);
        put32(&mut b, 36, self.block_size);
        put64(&mut b, 40, self.block_count);
        put64(&mut b, 64, self.incompat);
        put64(&mut b, 88, 1 << 20);
        put64(&mut b, 96, self.xid.wrapping_add(1));
        put32(&mut b, 104, self.desc_blocks);
        put64(&mut b, 112, self.desc_base);
        put32(&mut b, 136, self.desc_index);
        put32(&mut b, 140, self.desc_length);
        put64(&mut b, 160, self.omap);
        put32(&mut b, 180, self.max_file_systems);
        for (i, &oid) in self.slots.iter().take(SLOTS).enumerate() {
            put64(&mut b, 184 + i * 8, oid);
        }
        // What follows the slots are counts.
        put64(&mut b, 184 + SLOTS * 8, self.xid | 1);
        b
    }

    /// One that must not be taken: its slots and object map lead elsewhere.
    pub fn other(&self, random: &mut Random) -> Superblock {
        Superblock {
            slots: (0..random.below(6)).map(|_| random.below(3) * (1 + random.below(5000))).collect(),
            max_file_systems: random.pick(&[0, 1, 2, 100, 101]),
            omap: random.pick(&[0, 1, 2, self.omap, self.block_count, 1 << 40]),
            incompat: random.pick(&[0x2, 0x2, 0x1, 0x100, self.incompat]),
            block_size: random.pick(&[4096, self.block_size, 512, 0]),
            block_count: random.pick(&[self.block_count, 0, 1, u64::MAX]),
            desc_blocks: random.pick(&[self.desc_blocks, 0, 1, 0x8000_0008]),
            ..self.clone()
        }
    }
}
