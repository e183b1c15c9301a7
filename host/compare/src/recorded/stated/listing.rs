//! "The listing (added)".

use sticks::block::put16;
use sticks::contents::{Contents, Key, Stream, COMPRESSED};

use super::stick::{
    at_block, changed, contents, directory, embedded, empty, entry, file, image, sized, stored, streamed, ROOT,
    ROOT_LINE, TREE_ROOT,
};
use super::Said::{Refused, Text};
use super::{group, Group, Said, Stated, ROOM};

const LONG: usize = 65_536;

fn listed(c: Contents, said: Said) -> (Vec<u8>, Vec<Stated>) {
    (image(c), vec![Stated::list(ROOM, said)])
}

/// Document 01's example, with request 08's line.
fn example() -> String {
    format!("(volume 1 0 x41\n{ROOT_LINE}(data x)\n)\n(total 1 0 0)\n)\n")
}

fn node(id: u64) -> String {
    format!("(node {id} 2 {id} 0 0 0 0 0 0 0 0 0 16877 - -\n")
}

/// Directories one in the other, `depth` of them below the root, and the listing of what is above the last.
pub fn chain(depth: u64) -> Contents {
    let id = |i: u64| if i == 0 { ROOT } else { 15 + i };
    let one = |i: u64| {
        let next = [("n", id(i + 1))];
        directory(id(i), if i < depth { &next } else { &[] })
    };
    contents((0..=depth).map(one).collect())
}

pub fn chain_text(depth: u64) -> String {
    let mut text = format!("(volume 1 0 x41\n{ROOT_LINE}(data x)\n");
    for i in 1..=depth {
        text += &format!("(entry {0} 3 8 x6e\n{1}(data x)\n", 15 + i, node(15 + i));
    }
    text += &")\n".repeat(2 * depth as usize + 1);
    text + &format!("(total {} 0 0)\n)\n", depth + 1)
}

pub fn groups() -> Vec<Group> {
    vec![texts(), names(), depths(), buffers(), order(), overlaps()]
}

fn texts() -> Group {
    let mut c = contents(vec![directory(ROOT, &[("b", 20), ("a", 21)]), file(20), file(21)]);
    c.files[0].attributes = vec![embedded("n", b"v"), streamed("s", 300, 2)];
    c.files[1].inode.bsd = COMPRESSED;
    c.files[2].inode.links = i32::MIN;
    c.streams.push(Stream { id: 300, extents: vec![stored(0, b"xyz")] });
    let packed = "(node 20 2 20 0 0 0 0 0 0 32 0 0 16877 - -\n(packed)\n";
    let least = "(node 21 2 21 0 0 0 0 0 -2147483648 0 0 0 16877 - -\n(data x)\n";
    let attributes = "(attr 2 x6e e x76)\n(attr 1 x73 s 300 x7879)\n";
    let entries = format!("(entry 20 3 8 x62\n{packed})\n)\n(entry 21 3 8 x61\n{least})\n)\n");
    let text = format!("(volume 1 0 x41\n{ROOT_LINE}{attributes}(data x)\n{entries})\n(total 3 0 2)\n)\n");
    let data = "(node 100 2 100 0 0 0 0 0 0 0 0 0 16877 - 4,9000\n(data x00016100)\n)\n)\n)\n(total 2 4 0)\n)\n";
    let file = format!("(volume 1 0 x41\n{ROOT_LINE}(data x)\n(entry 100 3 8 x64617461\n{data}");
    // No directory, and yet its entries are read.
    let mut plain = chain(1);
    plain.files[0].inode.mode = 0o100_644;
    let plain_text = chain_text(1).replacen("16877", "33188", 1);
    let cases = vec![
        listed(plain, Text(plain_text)),
        listed(contents(vec![super::stick::file(ROOT)]), Text(example())),
        listed(c, Text(text)),
        listed(sized(4, vec![stored(0, b"\x00\x01a")]), Text(file)),
    ];
    group("listings", cases)
}

fn names() -> Group {
    let one = |label: &[u8], case: bool, norm: bool, line: &str| {
        let mut c = contents(vec![file(ROOT)]);
        (c.label, c.case_insensitive, c.normalization_insensitive) = (label.to_vec(), case, norm);
        listed(c, Text(format!("(volume {line}\n{ROOT_LINE}(data x)\n)\n(total 1 0 0)\n)\n")))
    };
    let cases = vec![
        one(b"", false, false, "0 0 x"),
        one(b"a\0b", false, true, "0 1 x61"),
        one(b"\xff\xe2\x82", true, true, "1 1 xefbfbdefbfbd"),
        one(&[b'a'; 256], true, false, &format!("1 0 x{}", "61".repeat(256))),
    ];
    group("labels and name rules", cases)
}

fn depths() -> Group {
    let astray = |depth: u64| {
        let mut c = chain(depth);
        c.files.pop();
        image(c)
    };
    let (deepest, deeper) = (chain_text(64), chain_text(65));
    // Up to the entry's line of what is too deep.
    let up_to = deeper.find(&node(80)).expect("its line");
    let cases = vec![
        (image(chain(1)), vec![Stated::list(ROOM, Text(chain_text(1)))]),
        (image(chain(64)), vec![Stated::list(LONG, Text(deepest))]),
        (
            image(chain(65)),
            vec![
                Stated::list(LONG, Refused(10)),
                Stated::list(up_to, Refused(10)),
                Stated::list(up_to - 1, Refused(6)),
            ],
        ),
        (astray(65), vec![Stated::list(LONG, Refused(10))]),
        (astray(64), vec![Stated::list(LONG, Refused(4))]),
    ];
    group("depths 64 and 65", cases)
}

fn buffers() -> Group {
    let n = example().len();
    let cases = vec![
        Stated::list(n + 1, Text(example())),
        Stated::list(n, Text(example())),
        Stated::list(n - 1, Refused(6)),
        Stated::list(16, Refused(6)),
        Stated::list(1, Refused(6)),
        Stated::list(0, Refused(6)),
    ];
    group("a listing into buffers", vec![(empty(), cases)])
}

/// 6 at the first line that was read without fault and does not fit.
fn order() -> Group {
    let no_root = changed(&empty(), TREE_ROOT, |b| put16(b, 60, 0xffff));
    let first = "(volume 1 0 x41\n".len();
    let mut faulty = contents(vec![file(ROOT)]);
    faulty.files[0].attributes = vec![streamed("s", 300, 5000)];
    faulty.streams.push(Stream { id: 300, extents: vec![at_block(0, 5000, 1 << 30)] });
    let second = first + ROOT_LINE.len();
    // Attributes and entries are read after the node's line, and before the first of them is written.
    let mut broken = contents(vec![file(ROOT)]);
    broken.files[0].attributes = vec![embedded("n", b"v")];
    broken.files[0].entries = vec![entry(Key::Wrong, "a", 20)];
    let cases = vec![
        (
            no_root,
            vec![Stated::list(first - 1, Refused(6)), Stated::list(first, Refused(4)), Stated::list(ROOM, Refused(4))],
        ),
        (image(faulty), vec![Stated::list(second - 1, Refused(6)), Stated::list(second, Refused(2))]),
        (image(broken), vec![Stated::list(second - 1, Refused(6)), Stated::list(second, Refused(2))]),
        (empty(), vec![Stated::list(40, Refused(4)).of_volume(1)]),
        (Vec::new(), vec![Stated::list(40, Refused(1)), Stated::list(0, Refused(1))]),
    ];
    group("a listing's first refusal", cases)
}

fn overlaps() -> Group {
    let lap = sized(8192, vec![at_block(0, 4096, 0), at_block(4095, 10, 0)]);
    let inside = sized(8192, vec![at_block(0, 4096, 0), at_block(4095, 0, 0)]);
    let last = sized(0, vec![at_block(u64::MAX - 10, 20, 0), at_block(u64::MAX, 0, 0)]);
    let cases = vec![listed(lap, Refused(2)), listed(inside, Refused(2)), listed(last, Refused(2))];
    group("extents that overlap, in a listing", cases)
}
