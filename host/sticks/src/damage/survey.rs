//! Which blocks of an image are worth spoiling.

use crate::block::{get16, get32, get64, BTREE, BTREE_NODE, CHECKPOINT_MAP, FS, FSTREE, NX_SUPERBLOCK, OMAP};
use crate::damage::Aim;
use crate::node::LEAF;

const KNOWN: [u32; 6] = [NX_SUPERBLOCK, BTREE, BTREE_NODE, OMAP, CHECKPOINT_MAP, FS];
/// Of a ring said to be longer, the rest is left alone.
const RING: u64 = 5000;

pub struct Survey {
    pub block_size: usize,
    /// Blocks to choose from; one that stands here twice is chosen twice as often.
    pub blocks: Vec<u64>,
    total: u64,
    counted: u64,
    ring: u64,
}

fn kind(b: &[u8]) -> u32 {
    get32(b, 24) & 0xffff
}

impl Survey {
    pub fn of(image: &[u8], aim: Aim) -> Survey {
        let mut s = Survey { block_size: 4096, blocks: Vec::new(), total: 0, counted: 0, ring: 0 };
        if image.len() < 4096 {
            return s;
        }
        let said = get32(image, 36) as usize;
        if (4096..=65536).contains(&said) && said.count_ones() == 1 {
            s.block_size = said;
        }
        s.total = (image.len() / s.block_size) as u64;
        s.counted = get64(image, 40);
        s.ring = get64(image, 112);
        match aim {
            Aim::Anywhere => s.everything(image),
            Aim::Opening => s.opening(image),
            Aim::Files => s.files(image),
        }
        s
    }

    fn block<'a>(&self, image: &'a [u8], block: u64) -> Option<&'a [u8]> {
        if block >= self.total {
            return None;
        }
        let at = block as usize * self.block_size;
        image.get(at..at + self.block_size)
    }

    fn everything(&mut self, image: &[u8]) {
        self.blocks =
            (0..self.total).filter(|&i| KNOWN.contains(&kind(&image[i as usize * self.block_size..]))).collect();
        self.blocks.push(0);
    }

    /// Nodes of volumes' trees, leaves above all; where there are none, as everything.
    fn files(&mut self, image: &[u8]) {
        let is_node = |b: &[u8]| matches!(kind(b), BTREE | BTREE_NODE) && get32(b, 28) == FSTREE;
        for i in 0..self.total {
            let b = &image[i as usize * self.block_size..];
            let times = if get16(b, 32) & LEAF != 0 { 3 } else { 1 };
            self.blocks.extend(vec![i; if is_node(b) { times } else { 0 }]);
        }
        if self.blocks.is_empty() {
            self.everything(image);
        }
    }

    /// Block 0, each block of the ring, and what the superblocks in it name.
    fn opening(&mut self, image: &[u8]) {
        let count = u64::from(get32(image, 104)).min(RING);
        self.blocks = vec![0; 1 + count as usize / 2];
        for i in 0..count {
            let Some(at) = self.ring.checked_add(i) else { break };
            let Some(b) = self.block(image, at) else { break };
            self.blocks.push(at);
            if kind(b) == NX_SUPERBLOCK {
                self.blocks.push(at);
                self.map(image, get64(b, 160));
            }
        }
    }

    fn map(&mut self, image: &[u8], at: u64) {
        let Some(b) = self.block(image, at).filter(|b| kind(b) == OMAP) else { return };
        let root = get64(b, 48);
        let both = [at, root].map(|n| if self.block(image, n).is_some() { n } else { at });
        for _ in 0..2 {
            self.blocks.extend(both);
        }
    }

    /// Numbers that are bounds of this image.
    pub fn edges(&self) -> [u64; 7] {
        let (n, c) = (self.total, self.counted);
        [n, n.wrapping_sub(1), n + 1, c, c.wrapping_sub(1), self.ring, self.ring.wrapping_add(1)]
    }
}
