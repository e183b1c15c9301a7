//! What each leaf must answer, by the published Rust alone.

use oracle::dev::BlockDevice;
use oracle::error::Error;
use oracle::obj::ObjHeader;
use oracle::{checksum, name_hash, probe};

use crate::leaf::{Case, Leaf};

pub struct Expected {
    pub value: u64,
    /// One of [`kinds`].
    pub kind: &'static str,
    /// False where the Rust has no answer (outside the comparison's domain) and document 01 decides.
    pub from_oracle: bool,
}

/// No buffer of more bytes is lent to the oracle.
pub const LARGEST_READ: u64 = 1 << 20;

const NOT_COVERED: u64 = (1 << 32) + 9;

const BOUNDS: [&str; 5] = ["taken", "taken to the end", "refused", "refused by one byte", "refused past 2^64"];
const PIECES: [&str; 8] = [
    "end",
    "of 1 byte",
    "of 2 bytes",
    "of 3 bytes",
    "of 4 bytes",
    "ill-formed, 1 byte",
    "ill-formed, 2 bytes",
    "ill-formed, 3 bytes",
];
const HASHES: [&str; 4] = ["sensitive", "insensitive", "insensitive, folded", "refused with 9"];
const FIELDS: [&str; 7] = ["checksum", "oid", "xid", "type", "subtype", "kind", "refused"];

/// Every kind of case that a comparison must see.
pub fn kinds(leaf: Leaf) -> Vec<&'static str> {
    match leaf {
        Leaf::Number => [&BOUNDS[..], &["another width"]].concat(),
        Leaf::NumberRefused | Leaf::SliceRefused => BOUNDS.to_vec(),
        Leaf::Cstr => vec!["empty", "to a zero byte", "to the end"],
        Leaf::Piece => PIECES.to_vec(),
        Leaf::ReadsAs => vec!["same", "same, with replaced parts", "different"],
        Leaf::IsUtf8 => vec!["yes", "no"],
        Leaf::Replaced => vec!["none", "one", "more"],
        Leaf::Compute => vec!["whole words", "a rest after the words"],
        Leaf::Verify => vec!["valid", "under 32 bytes", "not a multiple of 4", "another sum"],
        Leaf::Hash | Leaf::LenAndHash => HASHES.to_vec(),
        Leaf::Header => FIELDS.to_vec(),
        Leaf::HeaderRefused => vec!["taken", "refused"],
        Leaf::ReadAt => [&BOUNDS[..], &["refused, no such buffer"]].concat(),
    }
}

pub fn expected(c: &Case) -> Expected {
    match c.leaf {
        Leaf::Number => number(c),
        Leaf::NumberRefused => number_refused(c),
        Leaf::SliceRefused => slice_refused(c),
        Leaf::Cstr => cstr(c.input),
        Leaf::Piece => piece(c.input),
        Leaf::ReadsAs => reads_as(c),
        Leaf::IsUtf8 => is_utf8(c.input),
        Leaf::Replaced => replaced(c.input),
        Leaf::Compute => compute(c.input),
        Leaf::Verify => verify(c.input),
        Leaf::Hash => hashed(c, name_hash::name_hash),
        Leaf::LenAndHash => hashed(c, name_hash::name_len_and_hash),
        Leaf::Header => header(c),
        Leaf::HeaderRefused => header_refused(c.input),
        Leaf::ReadAt => read_at(c),
    }
}

fn oracle(value: u64, kind: &'static str) -> Expected {
    Expected { value, kind, from_oracle: true }
}

fn document(value: u64, kind: &'static str) -> Expected {
    Expected { value, kind, from_oracle: false }
}

fn refusal<T>(r: &Result<T, Error>) -> u64 {
    r.as_ref().map_or_else(probe::class, |_| 0)
}

fn bound(taken: bool, off: u64, len: u64, size: usize) -> &'static str {
    let past = off.checked_add(len).map(|end| end.wrapping_sub(size as u64));
    match (taken, past) {
        (true, Some(0)) => BOUNDS[1],
        (true, _) => BOUNDS[0],
        (false, Some(1)) => BOUNDS[3],
        (false, None) => BOUNDS[4],
        (false, _) => BOUNDS[2],
    }
}

fn field(c: &Case) -> Option<Result<u64, Error>> {
    let off = c.a as usize;
    match c.b {
        2 => Some(probe::u16_at(c.input, off).map(u64::from)),
        4 => Some(probe::u32_at(c.input, off).map(u64::from)),
        8 => Some(probe::u64_at(c.input, off)),
        _ => None,
    }
}

fn number(c: &Case) -> Expected {
    match field(c) {
        Some(r) => {
            let kind = bound(r.is_ok(), c.a, c.b, c.input.len());
            oracle(r.unwrap_or(0), kind)
        }
        None => document(0, "another width"),
    }
}

fn number_refused(c: &Case) -> Expected {
    let r = field(c).expect("a width of 2, 4 or 8");
    oracle(refusal(&r), bound(r.is_ok(), c.a, c.b, c.input.len()))
}

fn slice_refused(c: &Case) -> Expected {
    let r = probe::slice_at(c.input, c.a as usize, c.b as usize);
    oracle(refusal(&r), bound(r.is_ok(), c.a, c.b, c.input.len()))
}

fn cstr(b: &[u8]) -> Expected {
    // Where the text stops goes by the zero bytes alone; with ASCII for all others, the text is as
    // long as what was read.
    let marked: Vec<u8> = b.iter().map(|&x| if x == 0 { 0 } else { b'a' }).collect();
    let n = probe::cstr(&marked).len();
    let kind = match n {
        0 => "empty",
        n if n < b.len() => "to a zero byte",
        _ => "to the end",
    };
    oracle(n as u64, kind)
}

fn piece(b: &[u8]) -> Expected {
    let Some(chunk) = b.utf8_chunks().next() else { return oracle(0, PIECES[0]) };
    match chunk.valid().chars().next() {
        Some(c) => oracle(c.len_utf8() as u64, PIECES[c.len_utf8()]),
        None => {
            let n = chunk.invalid().len();
            oracle(256 + n as u64, PIECES[4 + n])
        }
    }
}

fn reads_as(c: &Case) -> Expected {
    let (name, text) = c.name_and_text();
    let lossy = String::from_utf8_lossy(name);
    let same = lossy.as_bytes() == text;
    let kind = match (same, std::str::from_utf8(name).is_ok()) {
        (true, true) => "same",
        (true, false) => "same, with replaced parts",
        (false, _) => "different",
    };
    oracle(same as u64, kind)
}

fn is_utf8(b: &[u8]) -> Expected {
    let yes = std::str::from_utf8(b).is_ok();
    oracle(yes as u64, if yes { "yes" } else { "no" })
}

fn replaced(b: &[u8]) -> Expected {
    let n = b.utf8_chunks().filter(|chunk| !chunk.invalid().is_empty()).count();
    oracle(n as u64, ["none", "one", "more"][n.min(2)])
}

fn compute(object: &[u8]) -> Expected {
    let kind = if object.len().is_multiple_of(4) { "whole words" } else { "a rest after the words" };
    oracle(checksum::compute(object), kind)
}

fn verify(object: &[u8]) -> Expected {
    let valid = checksum::verify(object);
    let kind = match object.len() {
        _ if valid => "valid",
        n if n < 32 => "under 32 bytes",
        n if n % 4 != 0 => "not a multiple of 4",
        _ => "another sum",
    };
    oracle(valid as u64, kind)
}

fn hashed(c: &Case, hash: fn(&str, bool) -> u32) -> Expected {
    let Some(name) = std::str::from_utf8(c.input).ok().filter(|n| n.is_ascii()) else {
        return document(NOT_COVERED, HASHES[3]);
    };
    let insensitive = c.a != 0;
    let folded = name.bytes().any(|x| x.is_ascii_uppercase());
    let kind = match (insensitive, folded) {
        (false, _) => HASHES[0],
        (true, false) => HASHES[1],
        (true, true) => HASHES[2],
    };
    oracle(hash(name, insensitive).into(), kind)
}

fn header(c: &Case) -> Expected {
    let Ok(h) = ObjHeader::parse(c.input) else { return oracle(0, FIELDS[6]) };
    let fields = [h.cksum, h.oid, h.xid, h.obj_type.into(), h.subtype.into(), h.kind().into()];
    oracle(fields[c.a as usize], FIELDS[c.a as usize])
}

fn header_refused(b: &[u8]) -> Expected {
    let r = ObjHeader::parse(b);
    oracle(refusal(&r), if r.is_ok() { "taken" } else { "refused" })
}

fn read_at(c: &Case) -> Expected {
    if c.b > LARGEST_READ {
        return document(1, "refused, no such buffer");
    }
    let image = c.input.to_vec();
    let r = image.read_at(c.a, &mut vec![0; c.b as usize]);
    oracle(refusal(&r), bound(r.is_ok(), c.a, c.b, image.len()))
}
