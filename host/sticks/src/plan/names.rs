//! Names of files and attributes.

use crate::random::Random;

const WORDS: [&str; 16] = [
    "a",
    "A",
    "b",
    "notes.txt",
    "Notes.txt",
    "NOTES.TXT",
    "round",
    "Round 7",
    "README",
    "readme",
    "log-01",
    "x",
    "y z",
    ".hidden",
    "0",
    "~",
];
const WIDE: [&str; 6] = ["é", "É", "Übung", "日本語", "ß", "\u{1f9ed}"];
const ILL_FORMED: [&[u8]; 6] = [b"\xff", b"a\x80b", b"\xe2\x82", b"\xed\xa0\x80", b"\xf0\x9f\x92", b"\xc3("];

const TYPED: &str = "\u{fffd}";
/// Each way out of Table 3-7 of the Unicode Standard: bytes that continue nothing, sequences of 2, 3 and 4 bytes cut
/// short, overlong ones, surrogates, what lies above U+10FFFF, and bytes that begin nothing.
const BROKEN: [&[u8]; 22] = [
    b"\x80",
    b"\xbf",
    b"\xc3",
    b"\xe2",
    b"\xe2\x82",
    b"\xef\xbf",
    b"\xf0",
    b"\xf0\x9f",
    b"\xf0\x9f\x92",
    b"\xf4\x8f\xbf",
    b"\xc0\x80",
    b"\xc1\xbf",
    b"\xe0\x80\x80",
    b"\xe0\x9f\xbf",
    b"\xf0\x80\x80\x80",
    b"\xf0\x8f\xbf\xbf",
    b"\xed\xa0\x80",
    b"\xed\xbf\xbf",
    b"\xf4\x90\x80\x80",
    b"\xf5\x80\x80\x80",
    b"\xfe",
    b"\xff",
];

/// The longest whose length, with its zero byte, a hashed key can state.
const LONGEST: u64 = 1022;

fn ascii(n: u64, r: &mut Random) -> Vec<u8> {
    (0..n).map(|_| r.pick(b"abcdefghijklmnopqrstuvwxyzABCDEFGHIJ0123456789 .-_")).collect()
}

/// A name in ASCII, neither empty nor with a separator in it.
pub fn plain(r: &mut Random) -> Vec<u8> {
    match r.below(10) {
        0..=5 => r.pick(&WORDS).as_bytes().to_vec(),
        6..=8 => {
            let n = r.between(1, 12);
            ascii(n, r)
        }
        _ => {
            let n = if r.chance(1, 10) { LONGEST } else { r.between(60, 255) };
            ascii(n, r)
        }
    }
}

/// Any name: also empty, wide, ill-formed, with a zero byte or a separator inside.
pub fn any(r: &mut Random) -> Vec<u8> {
    match r.below(12) {
        0 => Vec::new(),
        1 => r.pick(&WIDE).as_bytes().to_vec(),
        2 => [&plain(r)[..1], r.pick(&ILL_FORMED)].concat(),
        3 => b"ab\0cd".to_vec(),
        4 => b"a/b\\c".to_vec(),
        5 => {
            let n = r.place(9);
            r.bytes(n)
        }
        _ => plain(r),
    }
}

/// A name that reads with U+FFFD in it for bytes that are no UTF-8, for one that was typed, for both, or for neither.
/// Never of no bytes.
pub fn patched(r: &mut Random) -> Vec<u8> {
    let mut out = Vec::new();
    let kinds = if r.chance(1, 4) { 3 } else { 6 };
    for _ in 0..r.below(6) {
        out.extend(match r.below(kinds) {
            0 => r.pick(&WORDS).as_bytes(),
            1 => r.pick(&WIDE).as_bytes(),
            2 => TYPED.as_bytes(),
            _ => r.pick(&BROKEN),
        });
    }
    if out.is_empty() || r.chance(1, 4) {
        // What stands behind a zero byte is no part of the name.
        out.push(0);
        out.extend(r.pick(&BROKEN));
    }
    out
}

/// What a symbolic link leads to.
pub fn target(r: &mut Random) -> Vec<u8> {
    let mut out = any(r);
    for _ in 0..r.below(4) {
        out.push(b'/');
        out.extend(if r.chance(1, 2) { r.pick(&WIDE).as_bytes().to_vec() } else { any(r) });
    }
    if r.chance(1, 20) {
        let n = r.between(1, 5000);
        out.extend(ascii(n, r));
    }
    out
}

pub fn attribute(r: &mut Random) -> Vec<u8> {
    match r.below(6) {
        0 => b"com.apple.FinderInfo".to_vec(),
        1 => b"com.apple.decmpfs".to_vec(),
        2 => any(r),
        _ => plain(r),
    }
}
