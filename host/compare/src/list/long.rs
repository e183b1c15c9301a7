//! Small sticks whose listings are about 4,294,967,295 bytes long, as their files are mostly holes, and what document 02
//! says of their measures: told by the plan alone.

use sticks::contents::{
    Attribute, Contents, Data, Entry, Extent, Field, File, Inode, Key, Source, Stream, COMPRESSED, STREAM_FIELD,
    STREAM_FLAG,
};
use sticks::{make, Plan};

use crate::list::measure::{Measure, Measured, MOST, TOO_LONG};

const ROOT: u64 = 2;
const FILE: u64 = 100;
/// Of inodes that are not there, and of a directory that holds itself.
const ABSENT: u64 = 400;
const ENDLESS: u64 = 500;
/// Its data line alone is too long.
const VAST: u64 = 1 << 31;
/// The shortest and the longest text of the decimal number beside a size, which makes a length odd or even.
const ALLOCATED: [u64; 2] = [9000, 90_000];
/// Blocks that are counted, and not there.
const SPARE: u64 = 1000;

pub struct Long {
    pub what: &'static str,
    pub image: Vec<u8>,
    pub measured: Measured,
}

/// A file of holes, which the root holds under a name.
#[derive(Clone)]
struct Sparse {
    size: u64,
    allocated: u64,
    packed: bool,
    extents: Vec<Extent>,
}

fn extent(logical: u64, length: u64, source: Source) -> Extent {
    Extent { logical, length, source }
}

fn sparse(size: u64) -> Sparse {
    let extents = vec![extent(0, size, Source::Hole)];
    Sparse { size, allocated: ALLOCATED[0], packed: false, extents }
}

fn inode(id: u64, parent: u64) -> Inode {
    Inode { id, parent, private: id, mode: 16877, ..Inode::default() }
}

fn directory(id: u64, parent: u64, entries: &[(&str, u64)]) -> File {
    let entry =
        |&(name, id): &(&str, u64)| Entry { key: Key::Hashed, name: name.as_bytes().into(), id, date: 3, flags: 8 };
    File { inode: inode(id, parent), attributes: Vec::new(), entries: entries.iter().map(entry).collect() }
}

impl Sparse {
    fn file(&self) -> File {
        let data = [self.size, self.allocated, 0, 0, 0].map(u64::to_le_bytes).concat();
        let fields = vec![Field { kind: STREAM_FIELD, flags: 0x20, data }];
        let bsd = if self.packed { COMPRESSED } else { 0 };
        File { inode: Inode { fields, bsd, ..inode(FILE, ROOT) }, attributes: Vec::new(), entries: Vec::new() }
    }

    /// The lines from the entry's to its bracket, and in them two digits for each byte.
    fn length(&self, name: &str) -> u64 {
        let head = format!("(node {FILE} {ROOT} {FILE} 0 0 0 0 0 0 0 0 0 16877 - {},{}\n", self.size, self.allocated);
        let all = [&entry_line(FILE, name), &head, "(data x)\n)\n)\n"];
        all.iter().map(|line| line.len() as u64).sum::<u64>() + 2 * self.size
    }
}

fn entry_line(id: u64, name: &str) -> String {
    format!("(entry {id} 3 8 x{}\n", "00".repeat(name.len()))
}

/// The lines before the first entry.
const HEAD: &str = "(volume 1 0 x41\n(node 2 1 2 0 0 0 0 0 0 0 0 0 16877 - -\n(data x)\n";

/// The length of the listing of a root that holds the file alone, under these names.
fn length(file: &Sparse, names: &[&str]) -> u64 {
    let files: u64 = names.iter().map(|name| file.length(name)).sum();
    let shown = names.len() as u64;
    let foot = format!(")\n(total {} {} 0)\n)\n", 1 + shown, shown * file.size);
    (HEAD.len() + foot.len()) as u64 + files
}

/// A root that holds these names.
fn volume(entries: &[(&str, u64)], file: &Sparse) -> Contents {
    let endless = directory(ENDLESS, ROOT, &[("again", ENDLESS)]);
    Contents {
        label: b"A".to_vec(),
        case_insensitive: true,
        normalization_insensitive: false,
        encrypted: false,
        sealed: false,
        files: vec![directory(ROOT, 1, entries), file.file(), endless],
        streams: vec![Stream { id: FILE, extents: file.extents.clone() }],
        others: Vec::new(),
        regular: true,
    }
}

fn alone(file: &Sparse) -> Contents {
    volume(&[("data", FILE)], file)
}

fn image(c: Contents) -> Vec<u8> {
    make(Plan::with_contents(c, 5)).image
}

/// The file for which a length comes out as `target`.
fn fitting(target: u64, length: &dyn Fn(&Sparse) -> u64) -> Sparse {
    let of = |size: u64, allocated: u64| Sparse { allocated, ..sparse(size) };
    let near = |allocated: u64| {
        let rest = length(&of(2_000_000_000, allocated)) - 4_000_000_000;
        of((target - rest) / 2, allocated)
    };
    ALLOCATED.map(near).into_iter().find(|file| length(file) == target).expect("a size")
}

fn got(length: u64) -> Measured {
    Measured::Got(Measure { length, depth: 1 })
}

const REFUSED: Measured = Measured::Refused(TOO_LONG);

/// About the bound, and far behind it.
fn lengths() -> Vec<Long> {
    let whole = |file: &Sparse| length(file, &["data"]);
    let about = |target: u64| {
        let measured = if target > MOST { REFUSED } else { got(target) };
        Long { what: "a length about the bound", image: image(alone(&fitting(target, &whole))), measured }
    };
    let vast = |size: u64| Long { what: "a vast file", image: image(alone(&sparse(size))), measured: REFUSED };
    let names: Vec<String> = (b'a'..b'a' + 16).map(|c| char::from(c).into()).collect();
    let linked = |n: usize, measured: fn(u64) -> Measured| {
        let (file, names): (_, Vec<&str>) = (sparse(1 << 27), names[..n].iter().map(String::as_str).collect());
        let entries: Vec<(&str, u64)> = names.iter().map(|name| (*name, FILE)).collect();
        let measured = measured(length(&file, &names));
        Long { what: "a file under several names", image: image(volume(&entries, &file)), measured }
    };
    let packed = Sparse { packed: true, ..sparse(VAST) };
    let head = format!("(node {FILE} {ROOT} {FILE} 0 0 0 0 0 0 32 0 0 16877 - {VAST},9000\n(packed)\n)\n)\n");
    let text = format!("{HEAD}{}{head})\n(total 2 0 0)\n)\n", entry_line(FILE, "data"));
    let packed = Long { what: "a packed file", image: image(alone(&packed)), measured: got(text.len() as u64) };
    let mut all: Vec<Long> = (MOST - 3..MOST + 4).map(about).collect();
    all.extend([VAST, VAST + 1, 1 << 32, 1 << 63, (1 << 63) + 1, u64::MAX].map(vast));
    all.extend([linked(15, got), linked(16, |_| REFUSED), packed]);
    all
}

/// A fault in the reading of the line that would pass is met before it passes.
fn in_its_line() -> Vec<Long> {
    let with = |size: u64, extents: Vec<Extent>, number: u64| {
        let mut plan = Plan::with_contents(alone(&Sparse { extents, ..sparse(size) }), 5);
        (plan.spare, plan.counted_blocks_present) = (SPARE, false);
        Long { what: "a fault in the line that passes", image: make(plan).image, measured: Measured::Refused(number) }
    };
    let hole = |logical: u64, length: u64| extent(logical, length, Source::Hole);
    vec![
        with(VAST, vec![hole(0, 4096), extent(4096, 4096, Source::Block(1 << 30))], 2),
        with(VAST, vec![hole(0, 4096), hole(4095, 4096)], 2),
        with(u64::MAX, vec![hole(u64::MAX - 10, 20)], 8),
        with(VAST, vec![hole(0, VAST - 4096), extent(VAST - 4096, 4096, Source::Block(SPARE / 2))], 1),
        // Behind the size, and so not read.
        with(VAST, vec![hole(0, VAST), extent(VAST, 4096, Source::Block(1 << 30))], TOO_LONG),
    ]
}

/// A fault of a later line is not met, one of an earlier line is.
fn in_others() -> Vec<Long> {
    let vast = sparse(VAST);
    let entries = |list: &[(&str, u64)], number: u64| Long {
        what: "a fault before or after",
        image: image(volume(list, &vast)),
        measured: Measured::Refused(number),
    };
    // Up to the line of an entry whose inode is not there.
    let up_to = |file: &Sparse| HEAD.len() as u64 + file.length("data") + entry_line(ABSENT, "none").len() as u64;
    let at = |target: u64, number: u64| Long {
        what: "a fault at the bound",
        image: image(volume(&[("data", FILE), ("none", ABSENT)], &fitting(target, &up_to))),
        measured: Measured::Refused(number),
    };
    vec![
        entries(&[("data", FILE), ("none", ABSENT)], TOO_LONG),
        entries(&[("none", ABSENT), ("data", FILE)], 4),
        entries(&[("data", FILE), ("deep", ENDLESS)], TOO_LONG),
        entries(&[("deep", ENDLESS), ("data", FILE)], 10),
        at(MOST, 4),
        at(MOST + 1, TOO_LONG),
    ]
}

/// Attributes of so many bytes. The entries are read before them, the contents after.
fn attributes() -> Vec<Long> {
    let stream = 300;
    let with = |extents: Vec<Extent>, spoil: fn(&mut Contents), number: u64| {
        let mut c = alone(&sparse(3));
        let data = Data::Stream { id: stream, size: VAST };
        c.files[0].attributes = vec![Attribute { name: b"s".to_vec(), flags: STREAM_FLAG, data }];
        c.streams.push(Stream { id: stream, extents });
        spoil(&mut c);
        Long { what: "a vast attribute", image: image(c), measured: Measured::Refused(number) }
    };
    let lost = || vec![extent(0, 4096, Source::Block(1 << 30))];
    // Of the root's own contents.
    let unread = |c: &mut Contents| {
        let data = [8192, 9000, 0, 0, 0].map(u64::to_le_bytes).concat();
        c.files[0].inode.fields = vec![Field { kind: STREAM_FIELD, flags: 0x20, data }];
        c.streams.push(Stream { id: ROOT, extents: vec![extent(0, 4096, Source::Block(1 << 30))] });
    };
    vec![
        with(Vec::new(), |_| {}, TOO_LONG),
        with(vec![extent(0, VAST, Source::Hole)], |_| {}, TOO_LONG),
        with(lost(), |_| {}, 2),
        with(Vec::new(), |c| c.files[0].entries[0].key = Key::Wrong, 2),
        with(Vec::new(), unread, TOO_LONG),
    ]
}

pub fn sticks() -> Vec<Long> {
    [lengths(), in_its_line(), in_others(), attributes()].into_iter().flatten().collect()
}
