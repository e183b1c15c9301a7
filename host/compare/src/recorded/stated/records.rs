//! "Records": inodes, entries, attributes and links.

use sticks::block::put16;
use sticks::contents::{
    Attribute, Contents, Data, Entry, Extent, Field, File, Key, Stream, BRIEF_FLAG, LINK_ATTRIBUTE, NAME_FIELD,
    STREAM_FIELD,
};

use super::stick::{
    at_block, changed, contents, embedded, entry, file, image, stored, streamed, value_at, FILE, ROOT, TREE_ROOT,
};
use super::Said::{Answered, Refused, Text};
use super::{group, Group, Said, Stated};
use crate::calls::call::Call;

fn root(change: impl Fn(&mut File)) -> Contents {
    let mut only = file(ROOT);
    change(&mut only);
    contents(vec![only])
}

fn of_root(said: Said) -> Vec<Stated> {
    vec![Stated::lookup("", said)]
}

fn line(links: i32, name: &str, stream: &str) -> Said {
    Text(format!("(node 2 1 2 0 0 0 0 0 {links} 0 0 0 16877 {name} {stream}\n"))
}

fn field(kind: u8, data: &[u8]) -> Field {
    Field { kind, flags: 0, data: data.to_vec() }
}

pub fn groups() -> Vec<Group> {
    vec![values(), links(), fields(), keys(), places(), attributes(), streams(), targets(), after_faults()]
}

fn values() -> Group {
    let short = |n: usize| image(root(|f| f.inode.short = n));
    let mut cases: Vec<_> = [0, 1, 9, 10].into_iter().map(|n| (short(n), of_root(line(0, "-", "-")))).collect();
    cases.extend([11, 92].map(|n| (short(n), of_root(Refused(2)))));
    let mut second = file(ROOT);
    second.inode.links = 5;
    cases.push((image(contents(vec![file(ROOT), second])), of_root(line(0, "-", "-"))));
    group("an inode's value of 92 and of 82 bytes, and shorter; two of them", cases)
}

fn links() -> Group {
    let one = |n: i32| (image(root(|f| f.inode.links = n)), of_root(line(n, "-", "-")));
    group("links from -2,147,483,648 on", [i32::MIN, i32::MIN + 1, -1, 0, 1, i32::MAX].map(one).into())
}

fn fields() -> Group {
    let sizes = |n: u64| [n, n + 1, 0, 0, 0].map(u64::to_le_bytes).concat();
    let with =
        |list: &[(u8, &[u8])]| image(root(|f| f.inode.fields = list.iter().map(|(k, d)| field(*k, d)).collect()));
    let (name, stream) = (NAME_FIELD, STREAM_FIELD);
    // The field is said to have more bytes than follow.
    let past = |n: u16| changed(&with(&[(name, b"abcdefg\0")]), TREE_ROOT, |b| put16(b, value_at(b, 0) + 98, n));
    let cases = vec![
        (with(&[(name, b"abc\0")]), of_root(line(0, "x616263", "-"))),
        (with(&[(name, b"abc\0"), (name, b"de\0")]), of_root(line(0, "x6465", "-"))),
        (with(&[(name, b"a\0c\0")]), of_root(line(0, "x61", "-"))),
        (with(&[(name, b"a\xff")]), of_root(line(0, "x61efbfbd", "-"))),
        (with(&[(name, b"\0")]), of_root(line(0, "x", "-"))),
        (with(&[(13, b"12345"), (stream, &sizes(7))]), of_root(line(0, "-", "7,8"))),
        (with(&[(stream, &sizes(7)), (stream, &sizes(70))]), of_root(line(0, "-", "70,71"))),
        (
            with(&[(stream, &sizes(7)), (name, b"123456789\0"), (200, b"")]),
            of_root(line(0, "x313233343536373839", "7,8")),
        ),
        (with(&[(stream, &sizes(7)[..16])]), of_root(line(0, "-", "7,8"))),
        (past(8), of_root(line(0, "x61626364656667", "-"))),
        (past(9), of_root(Refused(2))),
        (with(&[(stream, &sizes(7)[..15])]), of_root(Refused(2))),
    ];
    group("extra fields: stepping, repeats, streams", cases)
}

fn keys() -> Group {
    let one = |key: Key, name: &str, said: Said| {
        let image = image(root(|f| f.entries.push(entry(key, name, FILE))));
        (image, vec![Stated::call(Call::Entry { id: ROOT, place: 0 }, said)])
    };
    let text = |name: &str| Text(format!("(entry 100 3 8 {name}\n"));
    let kind = |flags: u16| {
        let image = image(root(|f| f.entries.push(Entry { flags, ..entry(Key::Hashed, "a", FILE) })));
        let said = Text(format!("(entry 100 3 {} x61\n", flags & 15));
        (image, vec![Stated::call(Call::Entry { id: ROOT, place: 0 }, said)])
    };
    let cases = vec![
        kind(0),
        kind(15),
        kind(0xfff4),
        one(Key::Hashed, "abc", text("x616263")),
        one(Key::Plain, "abc", Refused(2)),
        one(Key::Bare, "abc", text("x616263")),
        one(Key::Wrong, "abc", Refused(2)),
        one(Key::Plain, "a", Refused(2)),
        one(Key::Plain, "", Refused(2)),
        one(Key::Hashed, "", text("x")),
        one(Key::Bare, "", text("x")),
    ];
    group("directory keys of a case-insensitive volume, and under 12 bytes; kinds", cases)
}

fn places() -> Group {
    let c = root(|f| {
        f.entries.extend([entry(Key::Hashed, "a", 20), entry(Key::Hashed, "b", 21)]);
        f.attributes.push(embedded("n", b"v"));
    });
    let entry = |place: u64, said: Said| Stated::call(Call::Entry { id: ROOT, place }, said);
    let text = |id: u64, name: &str| Text(format!("(entry {id} 3 8 {name}\n"));
    let n = "(entry 20 3 8 x61\n".len();
    let none = || Text(String::new());
    let cases = vec![
        entry(0, text(20, "x61")),
        entry(1, text(21, "x62")),
        entry(2, none()),
        entry(u64::MAX, none()),
        entry(0, text(20, "x61")).into_room(n),
        entry(0, Refused(6)).into_room(n - 1),
        entry(0, Refused(6)).into_room(0),
        entry(2, none()).into_room(0),
        Stated::call(Call::Xattr { id: ROOT, place: 1 }, none()),
        Stated::call(Call::Extent { id: ROOT, place: 0 }, none()),
        Stated::call(Call::Entry { id: 77, place: 0 }, none()),
        Stated::call(Call::Extent { id: 77, place: 0 }, Refused(4)),
    ];
    group("lists by place, and past their ends", vec![(image(c), cases)])
}

fn attributes() -> Group {
    let mut c = root(|f| {
        let brief = Attribute { flags: 1 | BRIEF_FLAG, ..streamed("c", 300, 3) };
        f.attributes.extend([embedded("a", b"\x00\xff"), embedded("b", b""), brief, streamed("d", 301, 9000)]);
    });
    c.streams.push(Stream { id: 300, extents: vec![stored(0, b"xyz!")] });
    c.streams.push(Stream { id: 301, extents: vec![stored(0, &[7; 4096]), at_block(4096, 4096, 0)] });
    let at = |place: u64, said: Said| Stated::call(Call::Xattr { id: ROOT, place }, said);
    // More bytes follow than are counted, and fewer.
    let counted = |n: u16| {
        let image = image(root(|f| f.attributes.push(embedded("n", b"vw"))));
        changed(&image, TREE_ROOT, |b| put16(b, value_at(b, 1) + 2, n))
    };
    let short = "(attr 2 x61 e x00ff)\n";
    let cases = vec![
        at(0, Text(short.into())),
        at(0, Text(short.into())).into_room(short.len()),
        at(0, Refused(6)).into_room(short.len() - 1),
        at(1, Text("(attr 2 x62 e x)\n".into())),
        at(2, Text("(attr 65 x63 s 300 x78797a)\n".into())),
        at(3, Answered).into_room(20_000),
        at(3, Refused(6)),
        at(4, Text(String::new())),
    ];
    let fewer = (counted(1), vec![at(0, Text("(attr 2 x6e e x76)\n".into()))]);
    let more = (counted(3), vec![at(0, Refused(2))]);
    group("attributes, embedded and of a stream", vec![(image(c), cases), fewer, more])
}

fn streams() -> Group {
    let one = |size: u64, extents: Vec<Extent>, said: Said| {
        let mut c = root(|f| f.attributes.push(streamed("n", 300, size)));
        c.streams.push(Stream { id: 300, extents });
        (image(c), vec![Stated::call(Call::Xattr { id: ROOT, place: 0 }, said)])
    };
    let text = |hex: &str| Text(format!("(attr 1 x6e s 300 {hex})\n"));
    let far = |logical: u64| at_block(logical, 10, 1 << 30);
    let cases = vec![
        one(8, vec![stored(0, b"abc"), stored(5, b"de")], text("x6162630000646500")),
        one(8, vec![stored(0, b"abc"), stored(2, b"de")], Refused(2)),
        one(3, vec![stored(0, b"abc"), far(3)], text("x616263")),
        one(4, vec![stored(0, b"abc"), far(3)], Refused(2)),
        one(3, vec![stored(0, b"abc"), stored(1, b"de")], text("x616263")),
        one(2, Vec::new(), text("x0000")),
        one(u64::MAX, Vec::new(), Refused(6)),
    ];
    group("an attribute's stream: gaps, overlaps, past its size", cases)
}

fn targets() -> Group {
    let link = |data: Data, flags: u16| Attribute { name: LINK_ATTRIBUTE.to_vec(), flags, data };
    let with = |bytes: &[u8]| {
        let image = image(root(|f| f.attributes.push(link(Data::Embedded(bytes.to_vec()), 2))));
        let call = |said: Said| Stated::call(Call::Link { id: ROOT }, said);
        (image, call)
    };
    let one = |bytes: &[u8], text: &str| {
        let (image, call) = with(bytes);
        let n = text.len();
        let mut cases = vec![call(Text(text.into())), call(Text(text.into())).into_room(n)];
        cases.extend((n > 0).then(|| call(Refused(6)).into_room(n.saturating_sub(1))));
        (image, cases)
    };
    let mut streamed = root(|f| f.attributes.push(link(Data::Stream { id: 300, size: 5 }, 1)));
    streamed.streams.push(Stream { id: 300, extents: vec![stored(0, b"a\xe2"), stored(2, b"\x82\xac\xff")] });
    let call = |id: u64, said: Said| vec![Stated::call(Call::Link { id }, said)];
    let twice = root(|f| f.attributes.extend([b"one", b"two"].map(|b| link(Data::Embedded(b.to_vec()), 2))));
    let cases = vec![
        one(b"to/here\0", "to/here"),
        one(b"to", "to"),
        one(b"a\0b\0", "a"),
        one(b"", ""),
        one(b"\xe2\x82", "\u{fffd}"),
        (image(streamed), call(ROOT, Text("a\u{20ac}\u{fffd}".into()))),
        (image(twice), call(ROOT, Text("one".into()))),
        (image(root(|_| {})), call(ROOT, Refused(2))),
        (image(root(|_| {})), call(77, Refused(4))),
    ];
    group("symbolic links", cases)
}

/// A buffer that is too short comes after every other test.
fn after_faults() -> Group {
    let mut c = root(|f| {
        f.attributes.push(streamed("a", 300, 5000));
        f.attributes.push(Attribute { name: LINK_ATTRIBUTE.to_vec(), ..streamed("", 300, 5000) });
    });
    c.streams.push(Stream { id: 300, extents: vec![stored(0, b"abc"), at_block(3, 4096, 1 << 30)] });
    let calls = [Call::Xattr { id: ROOT, place: 0 }, Call::Link { id: ROOT }];
    let cases = calls.map(|call| Stated::call(call, Refused(2)).into_room(0)).into();
    group("a short buffer after every other test", vec![(image(c), cases)])
}
