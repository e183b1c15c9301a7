//! The marked lines of document 01 that concern leaves, by the port and by the oracle.

#![cfg(oracle)]

use compare::expected::expected;
use compare::leaf::{Case, Leaf};

fn both(leaf: Leaf, a: u64, input: &[u8], answer: u64) {
    let c = Case::new(leaf, a, 0, input);
    assert_eq!((expected(&c).value, c.answer()), (answer, answer), "{c:?}");
}

#[test]
fn checksums() {
    let mut object = [0; 34];
    both(Leaf::Compute, 0, &object[..32], 0xffff_ffff_ffff_ffff);
    object[8] = 1;
    both(Leaf::Compute, 0, &object[..32], 0x0000_0006_ffff_fff8);
    for size in [28, 34] {
        let sum = oracle::checksum::compute(&object[..size]);
        object[..8].copy_from_slice(&sum.to_le_bytes());
        both(Leaf::Verify, 0, &object[..size], 0);
    }
}

#[test]
fn hash_of_the_empty_name() {
    for insensitive in [0, 1] {
        both(Leaf::Hash, insensitive, b"", 0x3f_ffff);
        both(Leaf::LenAndHash, insensitive, b"", 0xffff_fc01);
    }
}
