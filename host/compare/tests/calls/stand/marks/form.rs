//! The byte form of a bookmark.

use super::slip::Slip::{self, BigEndian, BlockLast, LengthBeforeOffset, ValueBeforeKey};

/// Offset and length of a key and of a value.
#[derive(Clone, Copy)]
pub struct Fields {
    pub block: u64,
    pub key: [u32; 2],
    pub value: [u32; 2],
}

pub const MISSING: [u32; 2] = [u32::MAX; 2];

impl Fields {
    pub fn written(self, slip: Slip) -> Vec<u8> {
        let turned = |part: [u32; 2]| if slip == LengthBeforeOffset { [part[1], part[0]] } else { part };
        let parts = if slip == ValueBeforeKey { [self.value, self.key] } else { [self.key, self.value] };
        let parts = parts.map(turned).concat();
        let (block, parts): (Vec<u8>, Vec<u8>) = match slip {
            BigEndian => (self.block.to_be_bytes().into(), parts.iter().flat_map(|n| n.to_be_bytes()).collect()),
            _ => (self.block.to_le_bytes().into(), parts.iter().flat_map(|n| n.to_le_bytes()).collect()),
        };
        if slip == BlockLast {
            [parts, block].concat()
        } else {
            [block, parts].concat()
        }
    }

    /// Of 24 bytes.
    pub fn read(mark: &[u8], slip: Slip) -> Fields {
        let number = |at: usize, n: usize| {
            let byte = |i: usize| u64::from(mark[at + if slip == BigEndian { n - 1 - i } else { i }]) << (8 * i);
            (0..n).map(byte).sum::<u64>()
        };
        let (block, first) = if slip == BlockLast { (16, 0) } else { (0, 8) };
        let part = |at: usize| {
            let pair = [number(at, 4) as u32, number(at + 4, 4) as u32];
            if slip == LengthBeforeOffset {
                [pair[1], pair[0]]
            } else {
                pair
            }
        };
        let (one, other) = (part(first), part(first + 8));
        let (key, value) = if slip == ValueBeforeKey { (other, one) } else { (one, other) };
        Fields { block: number(block, 8), key, value }
    }
}
