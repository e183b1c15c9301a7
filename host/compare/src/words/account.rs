//! Which single words could be wrong: a second account. That a sum must come out right leaves one residue at each place,
//! and whether its words do is for the Rust to say.

use oracle::checksum::verify;
use sticks::block::{get32, put32};

use crate::words::Mend;

const MODULUS: u64 = 0xffff_ffff;

/// As request 13 lists them.
pub fn mends(object: &[u8]) -> Vec<Mend> {
    if object.len() < 12 || verify(object) {
        return Vec::new();
    }
    let stored = u64::from(get32(object, 0)) + u64::from(get32(object, 4));
    let words = object.len() / 4;
    let sum = (2..words).map(|i| u64::from(get32(object, 4 * i))).sum::<u64>() + stored;
    // The first sum and both stored halves come to a multiple of the modulus in every sound object.
    let lacks = MODULUS - sum % MODULUS;
    let mut copy = object.to_vec();
    (2..words).flat_map(|i| at(&mut copy, 4 * i, lacks)).collect()
}

/// Those at one place; the object is left as it was.
fn at(object: &mut [u8], place: usize, lacks: u64) -> Vec<Mend> {
    let word = get32(object, place);
    let residue = ((u64::from(word) + lacks) % MODULUS) as u32;
    let tried = if residue == 0 { vec![0, u32::MAX] } else { vec![residue] };
    let mut sound = |new: &u32| {
        put32(object, place, *new);
        let good = verify(object);
        put32(object, place, word);
        good
    };
    tried.into_iter().filter(|new| sound(new)).map(|new| (place as u64, new)).collect()
}
