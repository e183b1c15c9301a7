//! Request 03 of document 02: directory keys by the volume's own kind.

use sticks::block::put16;
use sticks::contents::{Contents, Entry, Key};
use sticks::sums::name_hash;

use super::stick::{changed, contents, embedded, entry, file, image, FILE, ROOT, ROOT_LINE, TREE_ROOT};
use super::Said::{Refused, Text};
use super::{group, Group, Said, Stated, ROOM};
use crate::calls::call::Call;
use crate::calls::replaced::{line, ENTRY};

/// Case-insensitive, normalization-insensitive.
type Kind = (bool, bool);

const PLAIN: Kind = (false, false);
const HASHED: [Kind; 3] = [(true, false), (false, true), (true, true)];
const NODE: &str = "(node 100 2 100 0 0 0 0 0 0 0 0 0 16877 - -\n";
/// The longest field that a hashed key counts.
const LONGEST: usize = 0x3ff;
/// The place of a root's second entry in the table of contents, behind its inode and its first.
const SECOND: usize = 56 + 8 * 2;

/// A volume "A" whose root has these entries, all of one file.
fn volume((case, norm): Kind, entries: Vec<Entry>) -> Contents {
    let mut root = file(ROOT);
    root.entries = entries;
    let c = contents(vec![root, file(FILE)]);
    Contents { case_insensitive: case, normalization_insensitive: norm, ..c }
}

fn at(place: u64, said: Said) -> Stated {
    Stated::call(Call::Entry { id: ROOT, place }, said)
}

fn number(place: u64, said: Said) -> Stated {
    Stated::call(Call::Replaced { kind: ENTRY, id: ROOT, place }, said)
}

fn entered(name: &[u8]) -> String {
    let hex: String = name.iter().map(|b| format!("{b:02x}")).collect();
    format!("(entry 100 3 8 x{hex}\n")
}

/// The one entry of a root, by each call that reads it.
fn one(kind: Kind, key: Key, stored: &[u8], name: Option<&[u8]>) -> (Vec<u8>, Vec<Stated>) {
    let head = format!("(volume {} {} x41\n{ROOT_LINE}(data x)\n", u8::from(kind.0), u8::from(kind.1));
    let said = |text: &dyn Fn(&[u8]) -> String| name.map_or(Refused(2), |name| Text(text(name)));
    let listed = |name: &[u8]| format!("{head}{}{NODE}(data x)\n)\n)\n)\n(total 2 0 0)\n)\n", entered(name));
    let mut cases = vec![
        at(0, said(&entered)),
        at(1, said(&|_| String::new())),
        number(0, said(&|_| line(0))),
        Stated::list(ROOM, said(&listed)),
    ];
    match name {
        Some(name) if !name.is_empty() => cases.push(Stated::lookup(name, Text(NODE.into()))),
        _ => cases.push(Stated::lookup("a", Refused(if name.is_some() { 4 } else { 2 }))),
    }
    (image(volume(kind, vec![entry(key, stored, FILE)])), cases)
}

pub fn groups() -> Vec<Group> {
    vec![refused_before(), forms(), counts(), lengths(), brief(), hashes(), beside(), below()]
}

/// The stick of the request, and its like.
fn refused_before() -> Group {
    let cases = vec![
        one(PLAIN, Key::BarePlain, b"a", Some(b"a")),
        one(PLAIN, Key::Plain, b"", Some(b"")),
        one(PLAIN, Key::BarePlain, b"", Some(b"")),
    ];
    group("plain keys of 11 and of 10 bytes", cases)
}

fn forms() -> Group {
    let name: &[u8] = b"abc";
    let mut cases: Vec<_> = [Key::Plain, Key::BarePlain].map(|key| one(PLAIN, key, name, Some(name))).into();
    cases.extend([Key::Hashed, Key::Bare].map(|key| one(PLAIN, key, name, None)));
    for kind in HASHED {
        cases.extend([Key::Hashed, Key::Bare].map(|key| one(kind, key, name, Some(name))));
        cases.extend([Key::Plain, Key::BarePlain].map(|key| one(kind, key, name, None)));
    }
    group("each form on each kind of volume", cases)
}

/// What stands between a key's head and its name.
fn count(hashed: bool, n: usize, name: &[u8]) -> Vec<u8> {
    match hashed {
        true => (n as u32 & LONGEST as u32 | name_hash(name, true) << 10).to_le_bytes().to_vec(),
        false => (n as u16).to_le_bytes().to_vec(),
    }
}

/// A key that counts `n` bytes of a name.
fn counted(kind: Kind, n: usize, name: &[u8]) -> (Vec<u8>, Vec<Stated>) {
    let hashed = kind != PLAIN;
    let taken = (n == name.len()).then_some(name);
    one(kind, Key::Raw, &[count(hashed, n, name), name.to_vec()].concat(), taken)
}

fn counts() -> Group {
    let kinds = [PLAIN, HASHED[0], HASHED[1]];
    let cases = kinds.into_iter().flat_map(|kind| [3, 4, 5, 0].map(|n| counted(kind, n, b"abcd"))).collect();
    group("counts off by one", cases)
}

fn lengths() -> Group {
    let name = |n: usize| vec![b'n'; n];
    let mut cases: Vec<_> = [LONGEST, LONGEST + 1].map(|n| counted(PLAIN, n, &name(n))).into();
    cases.push(counted(PLAIN, 0, &name(LONGEST + 1)));
    cases.push(counted(HASHED[0], LONGEST, &name(LONGEST)));
    cases.extend([0, LONGEST].map(|n| counted(HASHED[0], n, &name(LONGEST + 1))));
    group("fields of 1,023 and 1,024 bytes", cases)
}

/// Keys of 9 to 12 bytes: what follows their head, and the name by kind.
fn brief() -> Group {
    let plain: [(&[u8], Option<&[u8]>); 9] = [
        (b"\0", None),
        (b"\0\0", Some(b"")),
        (b"\x01\0", None),
        (b"\x01\0a", Some(b"a")),
        (b"\0\0a", None),
        (b"\x02\0a\0", Some(b"a")),
        (b"\x02\0ab", Some(b"ab")),
        (b"\x01\0ab", None),
        (b"\0\0\0\0", None),
    ];
    let hashed: [(&[u8], Option<&[u8]>); 6] = [
        (b"\0", None),
        (b"\0\0", None),
        (b"\x01\0a", None),
        (b"\0\0\0\0", Some(b"")),
        (b"\0\xfcab", Some(b"")),
        (b"\x02\0ab", None),
    ];
    let of_plain = plain.into_iter().map(|(stored, name)| one(PLAIN, Key::Raw, stored, name));
    let of_hashed = hashed.into_iter().map(|(stored, name)| one(HASHED[0], Key::Raw, stored, name));
    group("keys of 9 to 12 bytes", of_plain.chain(of_hashed).collect())
}

/// The hash in a key is nobody's affair.
fn hashes() -> Group {
    let with = |hash: u32| [&(3 | hash << 10).to_le_bytes()[..], b"abc"].concat();
    let cases = [0, 1, 0x3f_ffff].map(|hash| one(HASHED[0], Key::Raw, &with(hash), Some(b"abc")));
    group("hashes that are not the name's", cases.into())
}

fn both(keys: [Key; 2]) -> Vec<Entry> {
    keys.map(|key| entry(key, "abc", FILE)).into()
}

/// A key of the other form beside one of the volume's: the whole list is refused, and nothing else.
fn beside() -> Group {
    let head = format!("(volume 0 0 x41\n{ROOT_LINE}");
    let mixed = vec![
        at(0, Refused(2)),
        at(u64::MAX, Refused(2)).into_room(0),
        number(0, Refused(2)),
        Stated::lookup("abc", Refused(2)),
        Stated::lookup("", Text(ROOT_LINE.into())),
        Stated::list(head.len() - 1, Refused(6)),
        Stated::list(head.len(), Refused(2)),
    ];
    let short = changed(&image(volume(PLAIN, both([Key::Plain, Key::Plain]))), TREE_ROOT, |b| put16(b, SECOND + 6, 17));
    let cases = vec![
        (image(volume(PLAIN, both([Key::Plain, Key::Hashed]))), mixed),
        (short, vec![at(0, Refused(2)), Stated::lookup("abc", Refused(2))]),
    ];
    group("a key of the other form beside one of the volume's", cases)
}

/// Only a directory that is read is refused.
fn below() -> Group {
    let mut c = volume(PLAIN, vec![entry(Key::Plain, "dir", FILE)]);
    c.files[1].entries = vec![entry(Key::Hashed, "abc", FILE)];
    c.files[1].attributes = vec![embedded("n", b"v")];
    let entered = "(entry 100 3 8 x646972\n";
    let up_to = format!("(volume 0 0 x41\n{ROOT_LINE}(data x)\n{entered}{NODE}").len();
    let cases = vec![
        at(0, Text(entered.into())),
        Stated::lookup("dir", Text(NODE.into())),
        Stated::lookup("dir/abc", Refused(2)),
        Stated::call(Call::Xattr { id: FILE, place: 0 }, Text("(attr 2 x6e e x76)\n".into())),
        Stated::list(up_to - 1, Refused(6)),
        Stated::list(up_to, Refused(2)),
    ];
    group("a key of the other form below", vec![(image(c), cases)])
}
