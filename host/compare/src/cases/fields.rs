//! Fields, parts, headers and reads: everything that goes by a place and a length.

use super::Sink;
use crate::expected::LARGEST_READ;
use crate::leaf::{Case, Leaf};
use crate::random::Random;

const LONGEST: usize = 24;
const HEADER: usize = 32;
const OTHER_WIDTHS: [u64; 12] = [0, 1, 3, 5, 6, 7, 9, 16, 1 << 32, (1 << 32) + 2, (1 << 63) + 4, u64::MAX];

/// Numbers around `size`, and those that a sum or a narrower type would take for small ones.
fn around(size: usize) -> Vec<u64> {
    let near = 0..=size as u64 + 9;
    let last = u64::MAX - (LONGEST as u64 + 9)..=u64::MAX;
    let wide = [1 << 16, 1 << 31, 1 << 32, 1 << 63].into_iter().flat_map(|x: u64| x - 2..=x + 2);
    near.chain(last).chain(wide).collect()
}

fn contents(size: usize, random: &mut Random) -> Vec<Vec<u8>> {
    let mut all = vec![vec![0xff; size], (1..=size as u8).collect()];
    all.extend((0..4).map(|_| random.bytes(size)));
    all
}

fn number_at(b: &[u8], off: u64, sink: Sink) {
    for width in [2, 4, 8] {
        sink(Case::new(Leaf::Number, off, width, b));
        sink(Case::new(Leaf::NumberRefused, off, width, b));
    }
    for width in OTHER_WIDTHS {
        sink(Case::new(Leaf::Number, off, width, b));
    }
}

pub fn numbers(random: &mut Random, sink: Sink) {
    for size in 0..=LONGEST {
        for b in contents(size, random) {
            for off in around(size) {
                number_at(&b, off, sink);
            }
        }
    }
    let block = random.bytes(4096);
    for off in (4080..4100).chain((0..2000).map(|_| random.below(4096) as u64)) {
        number_at(&block, off, sink);
    }
}

pub fn slices(sink: Sink) {
    for size in 0..=LONGEST {
        let b = vec![0; size];
        for off in around(size) {
            for len in around(size) {
                sink(Case::new(Leaf::SliceRefused, off, len, &b));
            }
        }
    }
}

pub fn headers(random: &mut Random, sink: Sink) {
    for size in 0..=40 {
        for _ in 0..200 {
            let mut b = random.bytes(size);
            if size >= HEADER && random.below(2) == 0 {
                // A kind of its own, with no flags above it.
                b[26..28].fill(0);
            }
            sink(Case::new(Leaf::HeaderRefused, 0, 0, &b));
            for field in 0..6 {
                sink(Case::new(Leaf::Header, field, 0, &b));
            }
        }
    }
}

fn read(image: &[u8], off: u64, len: u64, sink: Sink) {
    sink(Case::new(Leaf::ReadAt, off, len, image));
}

pub fn reads(random: &mut Random, sink: Sink) {
    for size in 0..=LONGEST {
        let image = random.bytes(size);
        for off in around(size) {
            for len in 0..=size as u64 + 9 {
                read(&image, off, len, sink);
            }
            for len in around(size).into_iter().filter(|&len| len > LARGEST_READ) {
                read(&image, off, len, sink);
            }
        }
    }
    let image = random.bytes(8192);
    for off in 4090..4102 {
        for len in 4090..4102 {
            read(&image, off, len, sink);
        }
    }
}
