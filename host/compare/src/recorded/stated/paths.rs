//! "Paths", and the refusals 5 and 9.

use sticks::block::put16;
use sticks::contents::Contents;

use super::stick::{changed, contents, directory, empty, file, image, ROOT, ROOT_LINE, TREE_ROOT};
use super::Said::{Refused, Text};
use super::{group, Group, Said, Stated};

fn node(id: u64) -> Said {
    Text(if id == ROOT { ROOT_LINE.into() } else { format!("(node {id} 2 {id} 0 0 0 0 0 0 0 0 0 16877 - -\n") })
}

fn looked(list: &[(&str, u64)]) -> Vec<Stated> {
    list.iter().map(|(path, id)| Stated::lookup(*path, node(*id))).collect()
}

fn refused(number: u64, list: &[&str]) -> Vec<Stated> {
    list.iter().map(|path| Stated::lookup(*path, Refused(number))).collect()
}

/// A root with these entries, each of an empty file.
fn with(entries: &[(&str, u64)]) -> Contents {
    let mut files = vec![directory(ROOT, entries)];
    files.extend(entries.iter().map(|(_, id)| file(*id)));
    contents(files)
}

/// The same where case counts.
fn sensitive(c: Contents) -> Contents {
    let mut c = Contents { case_insensitive: false, ..c };
    c.form_keys();
    c
}

pub fn groups() -> Vec<Group> {
    vec![roots(), parts(), names(), not_utf8(), wide(), buffers()]
}

fn roots() -> Group {
    let paths = ["", "/", "//", "\\", "\\\\", "/\\/", "////////"];
    group("paths without a part", vec![(empty(), looked(&paths.map(|p| (p, ROOT))))])
}

fn parts() -> Group {
    let c = contents(vec![directory(ROOT, &[("a", 20)]), directory(20, &[("b", 21), ("gone", 99)]), file(21)]);
    let mut cases = looked(&[("a", 20), ("/a", 20), ("a/", 20), ("a/b", 21), ("a\\b", 21), ("//a\\//b\\", 21)]);
    cases.extend(refused(4, &["b", "a/a", "a/b/c", "a/gone", "a b", " a", "a/.", ".."]));
    group("paths split on / and \\", vec![(image(c), cases)])
}

fn names() -> Group {
    let entries = [("AB", 20), ("ab", 21), ("ab", 22), ("x", 23)];
    let mut exact = looked(&[("ab", 21), ("AB", 20), ("x", 23)]);
    exact.extend(refused(4, &["Ab", "X", "abc", "a"]));
    let by_key = looked(&[("ab", 21), ("AB", 20), ("Ab", 20), ("aB", 20), ("X", 23)]);
    group(
        "names exactly equal, then with an equal key",
        vec![(image(sensitive(with(&entries))), exact), (image(with(&entries)), by_key)],
    )
}

fn not_utf8() -> Group {
    let paths: [&[u8]; 4] = [b"\xff", b"a/\xc3", b"\xed\xa0\x80", b"/\x80/"];
    let stated = |number: u64| -> Vec<Stated> { paths.map(|p| Stated::lookup(p, Refused(number))).into() };
    let no_root = changed(&empty(), TREE_ROOT, |b| put16(b, 60, 0xffff));
    let cases = vec![
        (empty(), stated(5)),
        (no_root.clone(), stated(5)),
        (no_root, refused(4, &["", "a"])),
        (empty(), stated(4).into_iter().map(|s| s.of_volume(1)).collect()),
        (Vec::new(), stated(1)),
    ];
    group("paths that are not UTF-8", cases)
}

fn wide() -> Group {
    let entries = [("a", 20), ("é", 21), ("z", 22)];
    let normal = |c: Contents| Contents { case_insensitive: false, normalization_insensitive: true, ..c };
    let mut folded = looked(&[("é", 21), ("A", 20), ("z", 22)]);
    folded.extend(refused(9, &["Z", "É", "q", "日", "é/É"]));
    let mut plain = looked(&[("é", 21), ("a", 20), ("z", 22)]);
    plain.extend(refused(4, &["Z", "É", "q"]));
    let mut composed = looked(&[("é", 21), ("a", 20), ("z", 22)]);
    composed.extend(refused(9, &["Z", "É", "q"]));
    let cases = vec![
        (image(with(&entries)), folded),
        (image(sensitive(with(&entries))), plain),
        (image(normal(with(&entries))), composed),
        (image(with(&[("a", 20)])), refused(4, &["b"])),
        (empty(), refused(9, &["é"])),
    ];
    group("characters above U+007F", cases)
}

fn buffers() -> Group {
    let n = ROOT_LINE.len();
    let into = |room: usize, said: Said| Stated::lookup("", said).into_room(room);
    let cases = vec![into(0, Refused(6)), into(n - 1, Refused(6)), into(n, node(ROOT)), into(n + 1, node(ROOT))];
    group("a node's line into buffers", vec![(empty(), cases)])
}
