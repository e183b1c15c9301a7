//! Directory keys in the form of their volume, and keys about the edges of both forms.

use crate::contents::{Contents, Entry, Key};
use crate::random::Random;
use crate::sums::name_hash;

/// Bytes of the shortest key that the Rust reads.
pub const SHORTEST: usize = 12;
/// The longest field whose length a hashed key can state.
const LONGEST: usize = 0x3ff;

/// Whether the key can state the length of its field.
pub fn counts(key: Key, name: &[u8]) -> bool {
    !matches!(key, Key::Hashed | Key::Bare) || key.length(name) <= 12 + LONGEST
}

/// Every key in the volume's form. Where all must be found, also by the Rust, none is too short for it.
pub fn form(c: &mut Contents) {
    c.form_keys();
    let all = c.files.iter_mut().flat_map(|f| &mut f.entries);
    for e in all.filter(|e| c.regular && e.key.length(&e.name) < SHORTEST) {
        e.key = Key::Plain;
        if e.name.is_empty() {
            e.name.push(b'e');
        }
    }
}

/// The same with names of few bytes, or of as many as a key can state, in some directories. In half of the volumes some
/// directories also have a key that is not of the volume's form.
pub fn at_edges(c: &Contents, r: &mut Random) -> Contents {
    let mut out = c.clone();
    // Volumes with plain keys are drawn less often than the others.
    if r.chance(1, 3) {
        (out.case_insensitive, out.normalization_insensitive) = (false, false);
        form(&mut out);
    }
    let (hashed, faulty) = (out.has_hashed_keys(), r.chance(1, 2));
    for entries in out.files.iter_mut().map(|f| &mut f.entries).filter(|list| !list.is_empty()) {
        if r.chance(1, 2) {
            let at = r.place(entries.len());
            sound(&mut entries[at], hashed, r);
        }
        if faulty && r.chance(1, 2) {
            wrong(entries, hashed, out.case_insensitive, r);
            out.regular = false;
        }
    }
    out
}

/// A key of the volume's form, with the shortest or the longest name.
fn sound(e: &mut Entry, hashed: bool, r: &mut Random) {
    let longest = if hashed { LONGEST } else { LONGEST + r.place(2) };
    let length = r.pick(&[0, 1, 2, longest]);
    // The zero byte, where there is one, belongs to the field.
    let zero = length > 0 && r.chance(1, 2);
    e.key = if zero { Key::Hashed } else { Key::Bare }.formed(hashed);
    e.name = field(length - usize::from(zero), r);
}

fn field(length: usize, r: &mut Random) -> Vec<u8> {
    (0..length).map(|_| r.pick(b"abcxyzABC")).collect()
}

/// One key, or all, that the volume's kind does not allow.
fn wrong(entries: &mut [Entry], hashed: bool, insensitive: bool, r: &mut Random) {
    if r.chance(1, 6) {
        entries.iter_mut().for_each(|e| e.key = e.key.other());
        return;
    }
    let at = r.place(entries.len());
    let e = &mut entries[at];
    match r.below(5) {
        0 => e.key = e.key.other(),
        1 => {
            e.key = if r.chance(1, 2) { Key::Hashed } else { Key::Bare }.formed(!hashed);
            e.name = field(r.place(3), r);
        }
        2 => miscount(e, hashed, insensitive, r),
        3 => overlong(e, hashed, r),
        _ => brief(e, r),
    }
}

/// What stands between a key's head and its name.
fn count(n: usize, name: &[u8], hashed: bool, insensitive: bool) -> Vec<u8> {
    if hashed {
        (n as u32 & LONGEST as u32 | name_hash(name, insensitive) << 10).to_le_bytes().to_vec()
    } else {
        (n as u16).to_le_bytes().to_vec()
    }
}

/// One more is counted than is there, or one less.
fn miscount(e: &mut Entry, hashed: bool, insensitive: bool, r: &mut Random) {
    let stored = [&e.name[..], b"\0"].concat();
    let n = stored.len() + 1 - 2 * r.place(2);
    (e.key, e.name) = (Key::Raw, [count(n, &e.name, hashed, insensitive), stored].concat());
}

/// A field of 1,024 bytes, one more than 10 bits can count: as many as are left of the count in 10 bits, or off by one.
fn overlong(e: &mut Entry, hashed: bool, r: &mut Random) {
    let name = field(LONGEST + 1, r);
    let n = if hashed { r.pick(&[0, LONGEST]) } else { r.pick(&[0, LONGEST, LONGEST + 2]) };
    (e.key, e.name) = (Key::Raw, [count(n, &name, hashed, false), name].concat());
}

/// A key of 9 to 12 bytes, which may state its own length in one of the forms.
fn brief(e: &mut Entry, r: &mut Random) {
    let mut bytes = vec![r.pick(&[0, 0, 1, 2, 3, 4]), 0, r.pick(b"\0a"), r.pick(b"\0b")];
    bytes.truncate(r.pick(&[1, 2, 3, 4]));
    (e.key, e.name) = (Key::Raw, bytes);
}
