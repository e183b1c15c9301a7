//! The list of wrong words of an object, beside the Rust's test of its checksum: it has no such list.

use std::hint::black_box;

use oracle::checksum::verify;
use sticks::block::{get32, put32, seal};
use sticks::random::Random;

use crate::bench::line;
use crate::opening::Open;

const SIZES: [usize; 3] = [4096, 16384, 65536];
const OFF: [(&str, u32); 3] = [("sound", 0), ("one word off by 2", 2), ("by a third of the modulus", u32::MAX / 3)];

fn row(size: usize, (what, off): (&str, u32), port: Open) -> String {
    let mut object = Random::new(size as u64).bytes(size);
    seal(&mut object);
    let word = get32(&object, 1000);
    put32(&mut object, 1000, word.wrapping_add(off));
    let mut room = vec![0; 6 * size];
    let count = port(&object, &mut room);
    let mut by_oracle = || {
        black_box(verify(black_box(&object)));
    };
    let mut ours = || {
        black_box(port(black_box(&object), &mut room));
    };
    let what = format!("wrong words of {size:>5} bytes, {what}, {count} listed");
    line(&what, &mut by_oracle, None, Some(&mut ours))
}

/// Medians for each size, in lines of text, with a port alone.
pub fn run(port: Option<Open>) -> String {
    let Some(port) = port else { return String::new() };
    SIZES.into_iter().flat_map(|size| OFF.map(|off| row(size, off, port))).collect()
}
