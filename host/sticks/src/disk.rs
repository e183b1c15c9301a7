//! The image while it is written: blocks are handed out one after another.

use crate::random::Random;

pub struct Disk {
    pub block_size: usize,
    bytes: Vec<u8>,
    random: Random,
    /// One in so many grants leaves blocks unused before it; 0 for none.
    gaps: u64,
}

impl Disk {
    pub fn new(block_size: usize, gaps: u64, random: Random) -> Self {
        Disk { block_size, bytes: vec![0; block_size], random, gaps }
    }

    /// How many blocks there are so far.
    pub fn blocks(&self) -> u64 {
        (self.bytes.len() / self.block_size) as u64
    }

    /// The first of `n` blocks in a row.
    pub fn take(&mut self, n: u64) -> u64 {
        if self.gaps > 0 && self.random.chance(1, self.gaps) {
            self.leave();
        }
        let first = self.blocks();
        self.bytes.resize(self.bytes.len() + n as usize * self.block_size, 0);
        first
    }

    /// `n` blocks that may stand anywhere, in no order.
    pub fn scatter(&mut self, n: usize) -> Vec<u64> {
        let mut all: Vec<u64> = (0..n).map(|_| self.take(1)).collect();
        self.random.shuffle(&mut all);
        all
    }

    fn leave(&mut self) {
        let n = self.random.between(1, 2) as usize * self.block_size;
        let junk = if self.random.chance(1, 2) { self.random.bytes(n) } else { vec![0; n] };
        self.bytes.extend(junk);
    }

    pub fn put(&mut self, block: u64, bytes: &[u8]) {
        let at = block as usize * self.block_size;
        self.bytes[at..at + bytes.len()].copy_from_slice(bytes);
    }

    pub fn empty_block(&self) -> Vec<u8> {
        vec![0; self.block_size]
    }

    pub fn into_image(self) -> Vec<u8> {
        self.bytes
    }
}
