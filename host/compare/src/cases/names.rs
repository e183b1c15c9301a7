//! Names for the hash: ASCII, where the stand-in for normalization is exact, and others.

use super::Sink;
use crate::leaf::{Case, Leaf};
use crate::random::Random;

fn name(b: &[u8], sink: Sink) {
    for insensitive in [0, 1] {
        sink(Case::new(Leaf::Hash, insensitive, 0, b));
        sink(Case::new(Leaf::LenAndHash, insensitive, 0, b));
    }
}

/// Every ASCII name of up to 2 characters.
pub fn short(sink: Sink) {
    name(b"", sink);
    for x in 0..128 {
        name(&[x], sink);
        for y in 0..128 {
            name(&[x, y], sink);
        }
    }
}

fn ascii(len: usize, random: &mut Random) -> Vec<u8> {
    (0..len).map(|_| random.byte() & 0x7f).collect()
}

pub fn drawn(random: &mut Random, sink: Sink) {
    for i in 0..20_000 {
        let b = ascii(3 + i % 40, random);
        name(&b, sink);
        // Any number but 0 is a yes.
        for insensitive in [2, 1 << 32, u64::MAX] {
            sink(Case::new(Leaf::Hash, insensitive, 0, &b));
        }
    }
    // The packed length has 10 bits, the closing zero byte counted.
    for len in (250..260).chain(1018..1030).chain(2044..2050) {
        for _ in 0..20 {
            name(&ascii(len, random), sink);
        }
    }
}

/// Names with a byte above 127 at every place, ill-formed ones too.
pub fn not_covered(random: &mut Random, sink: Sink) {
    for x in 128..=255 {
        name(&[x], sink);
        for len in 2..20 {
            for place in 0..len {
                let mut b = ascii(len, random);
                b[place] = x;
                name(&b, sink);
            }
        }
    }
    for c in ['\u{80}', 'é', 'ß', 'İ', '\u{212a}', '한', '\u{fffd}', '😀', '\u{10ffff}'] {
        name(c.to_string().as_bytes(), sink);
        name(format!("A{c}z").as_bytes(), sink);
    }
}
