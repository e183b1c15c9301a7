//! Objects, sound and failing, of every length that counts.

use sticks::block::{get32, put32, put64, seal};
use sticks::random::Random;

use crate::words::Mend;

const MODULUS: u64 = 0xffff_ffff;
/// What divides the modulus: a word that is off by a multiple of the rest has many places that pass.
const FACTORS: [u64; 8] = [3, 5, 15, 17, 51, 257, 65537, 3 * 257];

pub struct Drawn {
    pub object: Vec<u8>,
    pub kind: &'static str,
    /// What stood where one word was changed.
    pub planted: Option<Mend>,
}

pub const KINDS: [&str; 9] = [
    "sound",
    "of no length",
    "random",
    "one word changed",
    "one word off by a part of the modulus",
    "0 for 0xffffffff",
    "0 or 0xffffffff changed",
    "two words changed",
    "a stored half changed",
];

fn length(r: &mut Random) -> usize {
    match r.below(32) {
        0..4 => 32,
        4..8 => r.pick(&[36, 40, 44, 48, 64, 128]),
        8 => 4096,
        9 => r.pick(&[8192, 8192, 16384]),
        _ => 32 + 4 * r.place(300),
    }
}

/// Sound, with words of any size and some zeros.
fn sealed(n: usize, r: &mut Random) -> Vec<u8> {
    let mut object = r.bytes(n);
    for i in 2..n / 4 {
        match r.below(8) {
            0 => put32(&mut object, 4 * i, 0),
            1 => put32(&mut object, 4 * i, u32::MAX),
            2 => put32(&mut object, 4 * i, r.below(4) as u32),
            _ => {}
        }
    }
    seal(&mut object);
    object
}

fn place(object: &[u8], r: &mut Random) -> usize {
    4 * (2 + r.place(object.len() / 4 - 2))
}

/// The object with the word at a place changed, and what stood there.
fn changed(mut object: Vec<u8>, place: usize, word: u32, kind: &'static str) -> Drawn {
    let planted = Some((place as u64, get32(&object, place)));
    put32(&mut object, place, word);
    Drawn { object, kind, planted }
}

/// Of a length that no object has, and but for that with a wrong word.
fn unfit(object: Vec<u8>, at: usize, r: &mut Random) -> Vec<u8> {
    if r.chance(1, 2) {
        let mut short = sealed(r.pick(&[12, 16, 20, 24, 28]), r);
        let at = place(&short, r);
        put32(&mut short, at, r.draw() as u32);
        return short;
    }
    let mut long = object;
    put32(&mut long, at, r.draw() as u32);
    long.extend(r.bytes(1 + r.clone().place(3)));
    long
}

/// With stored halves that may be 0, its own, or a word's.
fn with_halves(mut object: Vec<u8>, word: u32, r: &mut Random) -> Vec<u8> {
    let halves = [r.pick(&[0, word, u32::MAX, get32(&object, 0)]), r.pick(&[0, word, get32(&object, 4)])];
    put64(&mut object, 0, u64::from(halves[1]) << 32 | u64::from(halves[0]));
    object
}

pub fn draw(r: &mut Random) -> Drawn {
    let kind = r.pick(&KINDS);
    let plain = |object: Vec<u8>| Drawn { object, kind, planted: None };
    let n = length(r);
    let mut object = sealed(n, r);
    let at = place(&object, r);
    let word = get32(&object, at);
    match kind {
        "sound" => plain(object),
        "of no length" => plain(unfit(object, at, r)),
        "random" => plain(r.bytes(n)),
        "one word changed" => changed(object, at, r.draw() as u32, kind),
        "one word off by a part of the modulus" => {
            let part = MODULUS / r.pick(&FACTORS) * r.between(1, 2);
            changed(object, at, ((u64::from(word) + part) % MODULUS) as u32, kind)
        }
        "0 for 0xffffffff" => {
            put32(&mut object, at, 0);
            seal(&mut object);
            put32(&mut object, at, u32::MAX);
            plain(object)
        }
        "0 or 0xffffffff changed" => {
            put32(&mut object, at, r.pick(&[0, u32::MAX]));
            seal(&mut object);
            changed(object, at, 1 + r.below(u64::from(u32::MAX) - 1) as u32, kind)
        }
        "two words changed" => {
            put32(&mut object, at, r.draw() as u32);
            let other = place(&object, r);
            put32(&mut object, other, r.draw() as u32);
            plain(object)
        }
        _ => plain(with_halves(object, word, r)),
    }
}
