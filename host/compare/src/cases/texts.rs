//! Texts: well-formed, ill-formed, and cut short.

use super::Sink;
use crate::leaf::{Case, Leaf};
use crate::random::Random;

/// The first and last bytes of each range in the table of well-formed UTF-8 (Unicode, table 3-7),
/// and their neighbours.
const EDGES: [u8; 26] = [
    0x00, 0x41, 0x7f, 0x80, 0x81, 0x8f, 0x90, 0x9f, 0xa0, 0xbf, 0xc0, 0xc1, 0xc2, 0xdf, 0xe0, 0xe1, 0xec, 0xed, 0xee,
    0xef, 0xf0, 0xf1, 0xf3, 0xf4, 0xf5, 0xff,
];

const REPLACEMENT: &[u8] = "\u{fffd}".as_bytes();

/// Texts that `name` might be taken for: the true one, and near misses.
fn readings(name: &[u8], random: &mut Random) -> Vec<Vec<u8>> {
    let lossy = String::from_utf8_lossy(name).into_owned().into_bytes();
    let mut all = vec![Vec::new(), name.to_vec(), byte_by_byte(name)];
    all.push([&lossy[..], &[random.pick(&EDGES)]].concat());
    all.push([&lossy[..], REPLACEMENT].concat());
    if let Some((_, start)) = lossy.split_last() {
        all.push(start.to_vec());
        let mut changed = lossy.clone();
        changed[random.below(lossy.len())] ^= 1 << random.below(8);
        all.push(changed);
    }
    all.push(lossy);
    all
}

/// With a replacement for each byte of an ill-formed part, and not one for the part.
fn byte_by_byte(name: &[u8]) -> Vec<u8> {
    let mut out = Vec::new();
    for chunk in name.utf8_chunks() {
        out.extend(chunk.valid().as_bytes());
        chunk.invalid().iter().for_each(|_| out.extend(REPLACEMENT));
    }
    out
}

fn plain(b: &[u8], sink: Sink) {
    for leaf in [Leaf::Cstr, Leaf::Piece, Leaf::IsUtf8, Leaf::Replaced] {
        sink(Case::new(leaf, 0, 0, b));
    }
}

fn text(b: &[u8], random: &mut Random, sink: Sink) {
    plain(b, sink);
    for reading in readings(b, random) {
        let input = [b, &reading].concat();
        sink(Case::new(Leaf::ReadsAs, b.len() as u64, 0, &input));
    }
}

fn every(alphabet: &[u8], len: usize, f: &mut dyn FnMut(&[u8])) {
    let mut places = vec![0; len];
    let mut b = vec![alphabet[0]; len];
    loop {
        f(&b);
        let Some(i) = (0..len).rev().find(|&i| places[i] + 1 < alphabet.len()) else { return };
        places[i] += 1;
        places[i + 1..].fill(0);
        for j in i..len {
            b[j] = alphabet[places[j]];
        }
    }
}

/// Every text of up to 2 bytes, and every one of 3 or 4 edge bytes.
pub fn short(random: &mut Random, sink: Sink) {
    let bytes: Vec<u8> = (0..=255).collect();
    for len in 0..=2 {
        every(&bytes, len, &mut |b| text(b, random, sink));
    }
    for len in 3..=4 {
        every(&EDGES, len, &mut |b| text(b, random, sink));
    }
}

/// Every number that has the form of a character, surrogates and those past the last included.
pub fn characters(sink: Sink) {
    for c in 0..0x11_1000u32 {
        let low = |shift: u32| 0x80 | (c >> shift & 0x3f) as u8;
        let all = match c {
            0..=0x7f => vec![c as u8],
            0x80..=0x7ff => vec![0xc0 | (c >> 6) as u8, low(0)],
            0x800..=0xffff => vec![0xe0 | (c >> 12) as u8, low(6), low(0)],
            _ => vec![0xf0 | (c >> 18) as u8, low(12), low(6), low(0)],
        };
        plain(&all, sink);
    }
}

fn drawn_piece(random: &mut Random, out: &mut Vec<u8>) {
    match random.below(6) {
        0 => out.push(random.byte()),
        1 => out.push(random.pick(&EDGES)),
        2 => out.push(b' ' + random.below(95) as u8),
        choice => {
            let c = loop {
                if let Some(c) = char::from_u32((random.draw() as u32 & 0x1f_ffff) >> random.below(15)) {
                    break c;
                }
            };
            let mut b = [0; 4];
            let whole = c.encode_utf8(&mut b).as_bytes();
            // One in three is cut short.
            let n = if choice == 3 { random.below(whole.len()) } else { whole.len() };
            out.extend(&whole[..n]);
        }
    }
}

/// Texts of 5 to 8 edge bytes, and longer ones.
pub fn drawn(random: &mut Random, sink: Sink) {
    for i in 0..500_000 {
        let b: Vec<u8> = (0..5 + i % 4).map(|_| random.pick(&EDGES)).collect();
        text(&b, random, sink);
    }
    for i in 0..60_000 {
        let mut b = Vec::new();
        for _ in 0..1 + random.below(if i % 100 == 0 { 300 } else { 20 }) {
            drawn_piece(random, &mut b);
        }
        text(&b, random, sink);
    }
}
