//! Opening containers with rings of several sizes.

use std::hint::black_box;
use std::sync::Arc;

use sticks::block::put64;
use sticks::{make, Plan};

use crate::bench::{line, Timed};
use crate::opening::answer::{self, Answer};
use crate::opening::check::check;
use crate::opening::Open;

const RINGS: [u32; 3] = [8, 280, 4096];

/// Whether the oracle stops at a sum that overflows, which slows it.
fn is_checked(image: &[u8]) -> bool {
    let mut image = image.to_vec();
    put64(&mut image, 112, u64::MAX);
    answer::open(&Arc::new(image)) == Answer::Overflow
}

fn ring(blocks: u32, port: Option<Open>) -> String {
    let image = Arc::new(make(Plan::with_ring(blocks, 5)).image);
    let want = answer::open(&image);
    assert!(matches!(want, Answer::Text(_)), "a ring of {blocks}: {want}");
    if let Some(Err(e)) = port.map(|p| check(p, &image, &want)) {
        panic!("a ring of {blocks}: {e}");
    }
    let mut by_oracle = || drop(black_box(answer::container(black_box(&image))));
    let mut buffer = [0; 4096];
    let mut ours = || {
        black_box(port.map(|p| p(black_box(&image), &mut buffer)));
    };
    let ours: Option<Timed> = port.is_some().then_some(&mut ours);
    line(&format!("opening, ring of {blocks:>4}"), &mut by_oracle, None, ours)
}

/// Medians for each ring, in lines of text; without a port, the oracle's alone.
pub fn run(port: Option<Open>) -> String {
    let mut out = String::new();
    if is_checked(&make(Plan::with_ring(8, 5)).image) {
        out += "the oracle is built with overflow checks, which slow it: use --profile speed\n";
    }
    RINGS.into_iter().for_each(|blocks| out += &ring(blocks, port));
    out
}
