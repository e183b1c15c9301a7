//! Request 02 of document 02: how many parts of a name its lossy reading replaces.

use sticks::block::put16;
use sticks::contents::{Attribute, Contents, Data, Extent, Field, File, Key, Stream, LINK_ATTRIBUTE, NAME_FIELD};
use sticks::gpt::around;
use sticks::make;
use sticks::volume::{Lost, FAR};

use super::stick::{
    at_block, changed, contents, empty, entry, file, image, plan, stored, streamed, value_at, FILE, ROOT, TREE_ROOT,
};
use super::Said::{Refused, Text};
use super::{group, Group, Said, Stated, ROOM};
use crate::calls::call::Call;
use crate::calls::replaced::{line, ATTRIBUTE, ENTRY, INODE, LABEL, LINK};

const TYPED: &[u8] = "\u{fffd}".as_bytes();
const DAMAGED: &[u8] = b"\xff";
const ALL: [u64; 5] = [LABEL, INODE, ENTRY, ATTRIBUTE, LINK];
/// The ways out of Table 3-7 of the Unicode Standard and names beside them, with how many parts are replaced.
const TABLE: [(&[u8], u64); 28] = [
    (b"plain", 0),
    (b"\xc3\xa4\xe2\x82\xac\xf0\x9f\x92\xa9", 0),
    (b"\xef\xbf\xbd", 0),
    (b"\xef\xbf\xbd\xff\xef\xbf\xbd", 1),
    (b"\x80", 1),
    (b"a\xbf\x80b", 2),
    (b"\xc3", 1),
    (b"\xc3(", 1),
    (b"\xe2", 1),
    (b"\xe2\x82", 1),
    (b"\xe2\x82\xe2\x82", 2),
    (b"\xf0\x9f", 1),
    (b"\xf0\x9f\x92", 1),
    (b"\xf0\x9f\x92a", 1),
    (b"\xc0\x80", 2),
    (b"\xc1\xbf", 2),
    (b"\xe0\x80\x80", 3),
    (b"\xe0\x9f\xbf", 3),
    (b"\xf0\x80\x80\x80", 4),
    (b"\xf0\x8f\xbf\xbf", 4),
    (b"\xed\xa0\x80", 3),
    (b"\xed\x9f\xbf", 0),
    (b"\xf4\x90\x80\x80", 4),
    (b"\xf4\x8f\xbf\xbf", 0),
    (b"\xf5\x80", 2),
    (b"\xfe\xff", 2),
    (b"a\0\xff", 0),
    (b"\xff\0\xff\xff", 1),
];

fn asked(kind: u64, id: u64, place: u64, said: Said) -> Stated {
    Stated::call(Call::Replaced { kind, id, place }, said)
}

fn number(kind: u64, place: u64, n: u64) -> Stated {
    asked(kind, ROOT, place, Text(line(n)))
}

fn none(kind: u64, id: u64, place: u64) -> Stated {
    asked(kind, id, place, Text(String::new()))
}

fn both(mut first: Vec<Stated>, then: impl IntoIterator<Item = Stated>) -> Vec<Stated> {
    first.extend(then);
    first
}

/// Each of these kinds, at the first place of the root.
fn refused(kinds: &[u64], by: u64) -> Vec<Stated> {
    kinds.iter().map(|&kind| asked(kind, ROOT, 0, Refused(by))).collect()
}

fn root(change: impl Fn(&mut File)) -> Contents {
    let mut only = file(ROOT);
    change(&mut only);
    contents(vec![only])
}

fn name_field(data: &[u8]) -> Field {
    Field { kind: NAME_FIELD, flags: 0, data: data.to_vec() }
}

fn embedded(name: &[u8], bytes: &[u8]) -> Attribute {
    Attribute { name: name.to_vec(), flags: 2, data: Data::Embedded(bytes.to_vec()) }
}

/// A root whose link is in a stream of these extents.
fn linked(size: u64, extents: Vec<Extent>) -> Contents {
    let link = || Attribute { name: LINK_ATTRIBUTE.to_vec(), ..streamed("", 300, size) };
    let mut c = root(|f| f.attributes.push(link()));
    c.streams.push(Stream { id: 300, extents });
    c
}

pub fn groups() -> Vec<Group> {
    vec![example(), table(), fields(), links(), absent(), no_kinds(), faults(), openings(), parts(), buffers()]
}

/// The request's: clients see U+FFFD and can't tell.
fn example() -> Group {
    let node = "(node 100 2 100 0 0 0 0 0 0 0 0 0 16877 - -\n";
    let entered = "(entry 100 3 8 x65efbfbd\n";
    let head = "(volume 1 0 x6cefbfbd\n(node 2 1 2 0 0 0 0 0 0 0 0 0 16877 x72efbfbd -\n(attr 2 x61efbfbd e x76)\n";
    let listed = format!("{head}(data x)\n{entered}{node}(data x)\n)\n)\n)\n(total 2 0 1)\n)\n");
    let one = |mark: &[u8], n: u64| {
        let with = |start: &str| [start.as_bytes(), mark].concat();
        let mut c = root(|f| {
            f.inode.fields.push(name_field(&with("r")));
            f.entries.push(entry(Key::Hashed, with("e"), FILE));
            f.attributes.push(embedded(&with("a"), b"v"));
        });
        c.label = with("l");
        c.files.push(file(FILE));
        let mut cases = vec![
            Stated::list(ROOM, Text(listed.clone())),
            Stated::lookup("e\u{fffd}", Text(node.into())),
            Stated::call(Call::Entry { id: ROOT, place: 0 }, Text(entered.into())),
        ];
        cases.extend([LABEL, INODE, ENTRY, ATTRIBUTE].map(|kind| number(kind, 0, n)));
        (image(c), cases)
    };
    let link = |mark: &[u8], n: u64| {
        let image = image(root(|f| f.attributes.push(embedded(LINK_ATTRIBUTE, mark))));
        (image, vec![Stated::call(Call::Link { id: ROOT }, Text("\u{fffd}".into())), number(LINK, 0, n)])
    };
    let cases = vec![one(TYPED, 0), one(DAMAGED, 1), link(TYPED, 0), link(DAMAGED, 1)];
    group("names in which U+FFFD was typed, and names that are damaged", cases)
}

fn table() -> Group {
    let c = root(|f| f.entries = TABLE.map(|(name, _)| entry(Key::Hashed, name, FILE)).into());
    let cases = (0..).zip(TABLE).map(|(place, (_, n))| number(ENTRY, place, n)).collect();
    group("each way out of the table of UTF-8", vec![(image(c), cases)])
}

fn fields() -> Group {
    let label = |bytes: &[u8], n: u64| {
        let c = Contents { label: bytes.to_vec(), ..root(|_| {}) };
        (image(c), vec![number(LABEL, 0, n), asked(LABEL, 77, u64::MAX, Text(line(n)))])
    };
    let inode = |copies: &[&[u8]], n: u64| {
        let c = root(|f| f.inode.fields = copies.iter().map(|data| name_field(data)).collect());
        (image(c), vec![number(INODE, 0, n), number(INODE, u64::MAX, n)])
    };
    let attributes = root(|f| f.attributes = TABLE.map(|(name, _)| embedded(name, b"\xff")).into());
    let keys = root(|f| f.entries = [Key::Hashed, Key::Bare].map(|key| entry(key, b"a\xff\xfe", FILE)).into());
    let cut = [&[b'l'; 254][..], b"\xe2\x82"].concat();
    let cases = vec![
        label(b"\xff\xe2\x82", 2),
        label(b"l\0\xff", 0),
        label(&cut, 1),
        inode(&[b"a\xff\xff\0", b"b\xfe\0"], 1),
        inode(&[b"b\0", b"a\xff\xfe\0"], 2),
        inode(&[b"a\xff\0", b"b\0\xff"], 0),
        inode(&[b""], 0),
        (image(attributes), (0..).zip(TABLE).map(|(place, (_, n))| number(ATTRIBUTE, place, n)).collect()),
        (image(keys), vec![number(ENTRY, 0, 2), number(ENTRY, 1, 2)]),
    ];
    group("labels, copies of an inode's name, attributes", cases)
}

fn links() -> Group {
    let one = |bytes: &[u8], n: u64| {
        let c = root(|f| f.attributes.push(embedded(LINK_ATTRIBUTE, bytes)));
        (image(c), vec![number(LINK, 0, n), number(LINK, u64::MAX, n), number(ATTRIBUTE, 0, 0)])
    };
    let parted = |parts: &[&[u8]], n: u64| {
        let starts = parts.iter().scan(0, |at, part| Some(std::mem::replace(at, *at + part.len() as u64)));
        let extents = starts.zip(parts).map(|(at, part)| stored(at, part)).collect();
        (image(linked(parts.concat().len() as u64, extents)), vec![number(LINK, 0, n)])
    };
    let twice = root(|f| f.attributes = [&b"\xff\xff"[..], b"\xff"].map(|b| embedded(LINK_ATTRIBUTE, b)).into());
    let behind = root(|f| f.attributes.push(embedded(&[LINK_ATTRIBUTE, b"\0\xff"].concat(), b"\xfe\xfe")));
    let cases = vec![
        one(b"to/\xff\0\xff", 1),
        one(b"\xe2\x82\xac", 0),
        one(b"", 0),
        parted(&[b"a\xe2", b"\x82\xac\xff"], 1),
        parted(&[b"\xf0", b"\x9f", b"\x92x"], 1),
        parted(&[b"\xed", b"\xa0\x80"], 3),
        parted(&[b"\xe2\x82", b"\xe2\x82\xac\0", b"\xff"], 1),
        (image(twice), vec![number(LINK, 0, 2)]),
        (image(behind), vec![number(LINK, 0, 2), number(ATTRIBUTE, 0, 0)]),
        // Behind the first extent stand zeros, far past any buffer.
        (image(linked(u64::MAX, vec![stored(0, b"\xff\xff")])), vec![number(LINK, 0, 2)]),
    ];
    group("texts of links, embedded and of a stream", cases)
}

fn absent() -> Group {
    let c = root(|f| {
        f.entries.push(entry(Key::Hashed, "e", FILE));
        f.attributes.push(embedded(b"a", b"v"));
    });
    let cases = vec![
        none(INODE, ROOT, 0),
        none(INODE, ROOT, 0).into_room(0),
        none(ENTRY, ROOT, 1),
        none(ENTRY, ROOT, u64::MAX).into_room(0),
        none(ENTRY, 77, 0),
        none(ATTRIBUTE, ROOT, 1),
        none(ATTRIBUTE, ROOT, u64::MAX),
        none(ATTRIBUTE, 77, 0),
        asked(INODE, 77, 0, Refused(4)),
        asked(LINK, 77, 0, Refused(4)),
        asked(LINK, ROOT, 0, Refused(2)),
        asked(LINK, ROOT, 0, Refused(2)).into_room(0),
    ];
    group("names that are not there", vec![(image(c), cases)])
}

fn no_kinds() -> Group {
    let kinds = [5, 6, 255, 256, 1 << 32, 1 << 32 | 2, u64::MAX];
    let mut sealed = root(|_| {});
    sealed.sealed = true;
    let broken = root(|f| f.entries.push(entry(Key::Wrong, "e", FILE)));
    let five = |by: u64| vec![asked(5, ROOT, 0, Refused(by)).into_room(0)];
    let cases = vec![
        (image(broken), kinds.map(|kind| asked(kind, ROOT, 0, Refused(4))).into()),
        (empty(), vec![asked(5, 77, 0, Refused(4)).into_room(0), asked(5, ROOT, 0, Refused(4)).of_volume(1)]),
        (image(sealed), five(3)),
        (Vec::new(), five(1)),
        (vec![0; 4096], five(11)),
    ];
    group("kinds above 4", cases)
}

/// What refuses a name refuses its number; a short buffer comes after.
fn faults() -> Group {
    let short = root(|f| f.inode.short = 11);
    let wrong = root(|f| f.entries = [Key::Hashed, Key::Wrong].map(|key| entry(key, "e", FILE)).into());
    // More bytes are counted than follow.
    let counted = image(root(|f| f.attributes = vec![embedded(LINK_ATTRIBUTE, b"to"), embedded(b"n", b"v")]));
    let counted = changed(&counted, TREE_ROOT, |b| put16(b, value_at(b, 2) + 2, 9));
    let far = || vec![stored(0, b"\xff"), at_block(1, 4096, 1 << 30)];
    let past = || vec![stored(0, b"\xff"), at_block(1, 4096, u64::MAX)];
    let mut lost = plan(linked(9, vec![at_block(0, 4096, 100)]));
    (lost.spare, lost.counted_blocks_present) = (1000, false);
    // The name stands in the attribute's key, and its contents are not looked at.
    let of_link = |by: u64| vec![asked(LINK, ROOT, 0, Refused(by)).into_room(0), number(ATTRIBUTE, 0, 0)];
    let at_end = |kind: u64| asked(kind, ROOT, u64::MAX, Refused(2)).into_room(0);
    let cases = vec![
        (image(short), refused(&[INODE, LINK], 2)),
        (image(wrong), both(refused(&[ENTRY], 2), [at_end(ENTRY), none(INODE, ROOT, 0)])),
        (counted, both(refused(&[ATTRIBUTE, LINK], 2), [at_end(ATTRIBUTE), number(LABEL, 0, 0)])),
        (image(linked(5000, far())), of_link(2)),
        (image(linked(5000, past())), of_link(8)),
        (make(lost).image, of_link(1)),
        (image(linked(1, far())), vec![number(LINK, 0, 1)]),
    ];
    group("what refuses a name", cases)
}

fn openings() -> Group {
    let encrypted = Contents { encrypted: true, ..root(|_| {}) };
    let mut lost = plan(root(|_| {}));
    lost.volumes[0].lost = Some(Lost::Far);
    (lost.spare, lost.counted_blocks_present) = (2 * FAR, false);
    let other = refused(&ALL, 4).into_iter().map(|s| s.of_volume(1)).collect();
    let cases = vec![
        (image(encrypted), refused(&ALL, 3)),
        (make(lost).image, refused(&ALL, 8)),
        (empty(), other),
        (empty()[..4095].to_vec(), refused(&ALL, 1)),
        (vec![0; 4096], refused(&ALL, 11)),
    ];
    group("volumes that do not open, asked about their names", cases)
}

fn parts() -> Group {
    let c = root(|f| f.entries.push(entry(Key::Hashed, b"\xff\xff", FILE)));
    let table = around(&image(c));
    let cut = table[..table.len() / 1024 * 512].to_vec();
    let mut neither = table.clone();
    let backup = table.len() - 512;
    [512, backup].into_iter().for_each(|at| neither[at] ^= 1);
    let cases = vec![(table, vec![number(ENTRY, 0, 2)]), (cut, refused(&ALL, 12)), (neither, refused(&ALL, 11))];
    group("names in a partition", cases)
}

fn buffers() -> Group {
    let c = root(|f| f.entries = [&[0xff_u8; 10][..], b"a"].map(|name| entry(Key::Hashed, name, FILE)).into());
    let into = |n: u64, place: u64| {
        let length = line(n).len();
        let short = [0, 1, length - 1].map(|room| asked(ENTRY, ROOT, place, Refused(6)).into_room(room));
        let enough = [length, length + 1].map(|room| number(ENTRY, place, n).into_room(room));
        both(short.into(), enough)
    };
    group("a number's line into buffers", vec![(image(c), both(into(10, 0), into(0, 1)))])
}
