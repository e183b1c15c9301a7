//! Objects, with the right sum and with others.

use oracle::checksum;

use super::Sink;
use crate::leaf::{Case, Leaf};
use crate::random::Random;

/// The Rust reads the stored sum, and computes one, from 8 bytes on.
const SUM: usize = 8;

fn both(object: &[u8], sink: Sink) {
    if object.len() >= SUM {
        sink(Case::new(Leaf::Compute, 0, 0, object));
    }
    sink(Case::new(Leaf::Verify, 0, 0, object));
}

/// The object as it is; with the right sum; and with sums and contents that differ by little.
fn object(mut b: Vec<u8>, random: &mut Random, sink: Sink) {
    both(&b, sink);
    if b.len() < SUM {
        return;
    }
    let sum = checksum::compute(&b);
    b[..SUM].copy_from_slice(&sum.to_le_bytes());
    both(&b, sink);
    let others = [0, sum.rotate_left(32), sum ^ 1 << random.below(64), sum.wrapping_add(1), same_modulo(sum)];
    for other in others {
        b[..SUM].copy_from_slice(&other.to_le_bytes());
        sink(Case::new(Leaf::Verify, 0, 0, &b));
    }
    b[..SUM].copy_from_slice(&sum.to_le_bytes());
    let i = random.below(b.len());
    b[i] ^= 1 << random.below(8);
    both(&b, sink);
}

/// The same two numbers modulo 2^32 - 1, with 0 for the modulus.
fn same_modulo(sum: u64) -> u64 {
    let word = |x: u64| if x == 0xffff_ffff { 0 } else { x };
    word(sum >> 32) << 32 | word(sum & 0xffff_ffff)
}

fn one_word(size: usize, random: &mut Random) -> Vec<u8> {
    let mut b = vec![0; size];
    if size > SUM {
        b[SUM + random.below(size - SUM)] = random.byte();
    }
    b
}

pub fn short(random: &mut Random, sink: Sink) {
    for size in 0..=64 {
        object(vec![0; size], random, sink);
        object(vec![0xff; size], random, sink);
        for _ in 0..40 {
            object(random.bytes(size), random, sink);
            object(one_word(size, random), random, sink);
        }
    }
}

pub fn blocks(random: &mut Random, sink: Sink) {
    let near = |n: usize| n - 12..=n + 12;
    // The Rust reduces its sums every 4,096 bytes from byte 8 on, the port every 65,536; without that, those of the
    // longest pass 64 bits.
    for size in near(4096).chain(near(8192)).chain(near(65536)).chain([16_384, 32_768, 131_072, 524_288]) {
        object(vec![0; size], random, sink);
        object(vec![0xff; size], random, sink);
        object(random.bytes(size), random, sink);
        object(one_word(size, random), random, sink);
        object(random.bytes(size).iter().map(|x| x | 0xf0).collect(), random, sink);
    }
}

/// Parts of a longer slice, so that no word lies where the machine would have it.
pub fn unaligned(random: &mut Random, sink: Sink) {
    for size in [32, 40, 4096, 65_536, 65_544, 65_576, 131_080] {
        for off in 1..8 {
            both(&random.bytes(off + size)[off..], sink);
            both(&vec![0xff; off + size][off..], sink);
        }
    }
}
