//! Request 08: the totals at the foot of the listing.

use sticks::contents::{Contents, Stream, COMPRESSED};
use sticks::make;
use sticks::plan::Save;
use sticks::volume::Volume;

use super::stick::{
    at_block, contents, directory, embedded, file, image, plan, sized, stored, streamed, FILE, ROOT, ROOT_LINE,
};
use super::Said::{Refused, Text};
use super::{group, Group, Stated, ROOM};

pub fn groups() -> Vec<Group> {
    vec![bytes(), linked(), packed(), attributes(), digits(), buffers(), saved()]
}

/// The root's forms, then the totals.
fn listing(root: &str, totals: &str) -> String {
    format!("(volume 1 0 x41\n{ROOT_LINE}{root})\n(total {totals})\n)\n")
}

/// What "data" shows below an empty root.
fn only(stream: &str, forms: &str, totals: &str) -> String {
    listing(&format!("(data x)\n{}", entry("64617461", stream, forms)), totals)
}

/// The file `FILE` under a name.
fn entry(name: &str, stream: &str, forms: &str) -> String {
    format!("(entry 100 3 8 x{name}\n(node 100 2 100 0 0 0 0 0 0 0 0 0 16877 - {stream}\n{forms})\n)\n")
}

fn listed(c: Contents, text: String) -> (Vec<u8>, Vec<Stated>) {
    (image(c), vec![Stated::list(ROOM, Text(text))])
}

/// Those in the data form count, wherever they come from.
fn bytes() -> Group {
    let hole = vec![at_block(0, 3, 0), stored(3, b"ab")];
    let cases = vec![
        listed(sized(3, vec![stored(0, b"abc")]), only("3,9000", "(data x616263)\n", "2 3 0")),
        listed(sized(2, vec![stored(0, b"abc")]), only("2,9000", "(data x6162)\n", "2 2 0")),
        listed(sized(6, vec![stored(0, b"abc")]), only("6,9000", "(data x616263000000)\n", "2 6 0")),
        listed(sized(5, hole), only("5,9000", "(data x0000006162)\n", "2 5 0")),
        listed(sized(4, Vec::new()), only("4,9000", "(data x00000000)\n", "2 4 0")),
        listed(sized(0, vec![stored(0, b"abc")]), only("0,9000", "(data x)\n", "2 0 0")),
    ];
    group("totals: bytes that are shown", cases)
}

/// A file of 3 bytes with an attribute, under these names.
fn named(names: &[&str]) -> Contents {
    let mut c = sized(3, vec![stored(0, b"abc")]);
    c.files[0] = directory(ROOT, &names.iter().map(|name| (*name, FILE)).collect::<Vec<_>>());
    c.files[1].attributes = vec![embedded("n", b"vw")];
    c
}

const NAMED: &str = "(attr 2 x6e e x7677)\n(data x616263)\n";

fn linked() -> Group {
    let [a, b] = ["61", "62"].map(|name| entry(name, "3,9000", NAMED));
    // In a directory of the root, and in the root.
    let mut below = named(&["b"]);
    below.files[0] = directory(ROOT, &[("d", 20), ("b", FILE)]);
    below.files.push(directory(20, &[("a", FILE)]));
    let folder = format!("(entry 20 3 8 x64\n(node 20 2 20 0 0 0 0 0 0 0 0 0 16877 - -\n(data x)\n{a})\n)\n");
    // Two files of one stream.
    let mut alike = sized(3, vec![stored(0, b"abc")]);
    alike.files[0] = directory(ROOT, &[("a", FILE), ("b", 101)]);
    alike.files.push(alike.files[1].clone());
    alike.files[2].inode.id = 101;
    let both =
        [100, 101].map(|id| format!("(node {id} 2 100 0 0 0 0 0 0 0 0 0 16877 - 3,9000\n(data x616263)\n)\n)\n"));
    let both = format!("(data x)\n(entry 100 3 8 x61\n{}(entry 101 3 8 x62\n{}", both[0], both[1]);
    let cases = vec![
        listed(named(&["a"]), listing(&format!("(data x)\n{a}"), "2 3 1")),
        listed(named(&["a", "b"]), listing(&format!("(data x)\n{a}{b}"), "3 6 2")),
        listed(named(&["a", "a", "b"]), listing(&format!("(data x)\n{a}{a}{b}"), "4 9 3")),
        listed(below, listing(&format!("(data x)\n{folder}{b}"), "4 6 2")),
        listed(alike, listing(&both, "3 6 0")),
    ];
    group("totals: a file as often as it is printed", cases)
}

fn packed() -> Group {
    let of = |names: &[&str]| {
        let mut c = named(names);
        c.files[1].inode.bsd = COMPRESSED;
        c
    };
    let node = "(node 100 2 100 0 0 0 0 0 0 32 0 0 16877 - 3,9000\n(attr 2 x6e e x7677)\n(packed)\n)\n)\n";
    let [a, b] = ["61", "62"].map(|name| format!("(entry 100 3 8 x{name}\n{node}"));
    let mut beside = of(&["a"]);
    beside.files[0] = directory(ROOT, &[("a", FILE), ("d", 20)]);
    beside.files.push(file(20));
    beside.files[2].inode.fields = beside.files[1].inode.fields.clone();
    let zeros = "(entry 20 3 8 x64\n(node 20 2 20 0 0 0 0 0 0 0 0 0 16877 - 3,9000\n(data x000000)\n)\n)\n";
    let mut root = contents(vec![file(ROOT)]);
    root.files[0].inode.bsd = COMPRESSED;
    let alone = "(volume 1 0 x41\n(node 2 1 2 0 0 0 0 0 0 32 0 0 16877 - -\n(packed)\n)\n(total 1 0 0)\n)\n";
    let cases = vec![
        listed(of(&["a"]), listing(&format!("(data x)\n{a}"), "2 0 1")),
        listed(of(&["a", "b"]), listing(&format!("(data x)\n{a}{b}"), "3 0 2")),
        listed(beside, listing(&format!("(data x)\n{a}{zeros}"), "3 3 1")),
        listed(root, alone.into()),
    ];
    group("totals: a packed file has 0 bytes", cases)
}

/// Each is one, whatever its form; its bytes count nowhere.
fn attributes() -> Group {
    let mut c = sized(3, vec![stored(0, b"abc")]);
    c.files[0].attributes = vec![embedded("e", b""), embedded("n", b"12345"), streamed("s", 300, 2)];
    c.files[1].attributes = vec![streamed("s", 300, 1), streamed("t", 301, 0)];
    c.streams.push(Stream { id: 300, extents: vec![stored(0, b"xyz")] });
    let of_root = "(attr 2 x65 e x)\n(attr 2 x6e e x3132333435)\n(attr 1 x73 s 300 x7879)\n(data x)\n";
    let of_file = "(attr 1 x73 s 300 x78)\n(attr 1 x74 s 301 x)\n(data x616263)\n";
    let text = listing(&format!("{of_root}{}", entry("64617461", "3,9000", of_file)), "2 3 5");
    let mut streams = contents(vec![file(ROOT)]);
    streams.files[0].attributes = vec![streamed("s", 300, 4)];
    let cases = vec![listed(c, text), listed(streams, listing("(attr 1 x73 s 300 x00000000)\n(data x)\n", "1 0 1"))];
    group("totals: attributes, embedded and of streams", cases)
}

/// 36 names of one file of 300 bytes.
fn digits() -> Group {
    let names: Vec<String> = (b'a'..=b'z').chain(b'0'..=b'9').map(|c| char::from(c).into()).collect();
    let mut c = sized(300, vec![stored(0, &[b'a'; 300])]);
    c.files[0] = directory(ROOT, &names.iter().map(|name| (name.as_str(), FILE)).collect::<Vec<_>>());
    c.files[1].attributes = vec![embedded("n", b""), embedded("o", b""), embedded("p", b"")];
    let attributes = "(attr 2 x6e e x)\n(attr 2 x6f e x)\n(attr 2 x70 e x)\n";
    let forms = format!("{attributes}(data x{})\n", "61".repeat(300));
    let one = |name: &String| entry(&format!("{:02x}", name.as_bytes()[0]), "300,9000", &forms);
    let entries: String = names.iter().map(one).collect();
    let text = listing(&format!("(data x)\n{entries}"), "37 10800 108");
    let n = text.len();
    let cases = vec![Stated::list(n, Text(text)), Stated::list(n - 1, Refused(6))];
    group("totals of several digits", vec![(image(c), cases)])
}

/// They are refused, as is the last bracket, only where they do not fit.
fn buffers() -> Group {
    let text = || only("3,9000", "(data x616263)\n", "2 3 0");
    let (n, line) = (text().len(), "(total 2 3 0)\n".len());
    let bracket = n - 2;
    let short = [bracket - line - 1, bracket - line, bracket - line + 1, n - line, bracket - 1, bracket, n - 1];
    let mut cases: Vec<Stated> = short.map(|room| Stated::list(room, Refused(6))).into();
    cases.extend([n, n + 1, n + line, n + 40].map(|room| Stated::list(room, Text(text()))));
    group("totals into buffers", vec![(image(sized(3, vec![stored(0, b"abc")])), cases)])
}

const LATEST: u64 = 100_000;

/// Each print has its own: at the number before the latest an empty root, and "data" since.
fn saved() -> Group {
    let mut plan = plan(sized(3, vec![stored(0, b"abc")]));
    let before = Volume { contents: contents(vec![directory(ROOT, &[])]), ..plan.volumes[0].clone() };
    plan.saves = vec![Save { xid: LATEST - 1, volumes: vec![before] }];
    plan.ring.checkpoints[2..].iter_mut().for_each(|c| c.current = true);
    let now = || only("3,9000", "(data x616263)\n", "2 3 0");
    let then = || listing("(data x)\n", "1 0 0");
    let list = |room: usize, said| Stated::list(room, said);
    let cases = vec![
        list(ROOM, Text(now())),
        list(ROOM, Text(now())).at(LATEST),
        list(ROOM, Text(then())).at(LATEST - 1),
        list(then().len(), Text(then())).at(LATEST - 1),
        list(then().len() - 3, Refused(6)).at(LATEST - 1),
    ];
    group("totals at an earlier checkpoint", vec![(make(plan).image, cases)])
}
