//! Small sticks in which each reading has records of its own, and each node or record may be at fault: what no seed draws
//! often enough.

use std::sync::OnceLock;

use sticks::block::{get16, get32, put16, put32, seal, BTREE, BTREE_NODE};
use sticks::contents::{
    Attribute, Contents, Data, Extent, Key, Source, Stream, COMPRESSED, LINK_ATTRIBUTE, STREAM_FLAG,
};
use sticks::plan::large;
use sticks::random::Random;
use sticks::{make, Plan};

use crate::calls::call::Call;
use crate::desks::draw::{room, Drawn};
use crate::desks::request::{self as what, Request};
use crate::list::long;
use crate::recorded::stated::stick::{
    at_block, contents, directory, embedded, entry, file, plan, sized, streamed, BLOCK, FILE, ROOT,
};

pub const DIRECTORY: u64 = 20;
pub const LINK: u64 = 40;
pub const PACKED: u64 = 50;
/// Of which there is no inode.
pub const ABSENT: u64 = 7;
/// Streams of the root's attributes and of the link's.
pub const STREAMS: [u64; 3] = [300, 301, 302];
pub const SIZE: u64 = 5000;

const REGULAR: u16 = 33188;
const FLAGS: usize = 32;
const LEVEL: usize = 34;
const KIND: usize = 24;
const NODE_ROOT: u16 = 0x1;
const HASHED: u16 = 0x8;
const TOO_HIGH: u16 = 33;
const OTHER_KIND: u32 = 0x0b;
/// Of an image with a node at fault one of so many calls is asked for.
const SHARE: usize = 12;

type Change = fn(&mut [u8]);

/// A root that has three attributes, two of them in streams, and four entries: a file of two extents, a directory with
/// the same file in it, a link whose text is a stream, and a compressed file.
pub fn rounds() -> Contents {
    let mut c = sized(SIZE, vec![short(0, b"one", 4096), short(4096, b"two", SIZE - 4096)]);
    let of_root = [("data", FILE), ("dir", DIRECTORY), ("link", LINK), ("pack", PACKED)];
    c.files[0] = directory(ROOT, &of_root);
    c.files[1].inode.mode = REGULAR;
    c.files[0].attributes = vec![embedded("a", b"bc"), streamed("s", STREAMS[0], 5), streamed("t", STREAMS[1], 3)];
    let mut link = file(LINK);
    let data = Data::Stream { id: STREAMS[2], size: 4 };
    link.attributes = vec![Attribute { name: LINK_ATTRIBUTE.to_vec(), flags: STREAM_FLAG, data }];
    let mut packed = file(PACKED);
    packed.inode.bsd = COMPRESSED;
    c.files.extend([directory(DIRECTORY, &[("data", FILE)]), link, packed]);
    let text = |id: u64, bytes: &[u8]| Stream { id, extents: vec![short(0, bytes, bytes.len() as u64)] };
    c.streams.extend([text(STREAMS[0], b"first"), text(STREAMS[1], b"two"), text(STREAMS[2], b"data")]);
    c.streams.push(text(PACKED, b"packed"));
    c
}

/// An extent that begins with these bytes, and is zeros behind them, so that it takes little to write down.
fn short(logical: u64, bytes: &[u8], length: u64) -> Extent {
    let mut data = bytes.to_vec();
    data.resize((length as usize).next_multiple_of(BLOCK), 0);
    Extent { logical, length, source: Source::Bytes(data) }
}

/// One record a leaf, below one root.
pub fn wide(c: Contents) -> Plan {
    let mut plan = plan(c);
    plan.volumes[0].tree.leaf = 1;
    plan
}

/// One record a leaf and few children a node, in the tree and in the maps.
pub fn tall(c: Contents) -> Plan {
    let mut plan = wide(c);
    plan.volumes[0].tree.index = 4;
    for map in [&mut plan.map, &mut plan.volumes[0].map] {
        (map.leaf, map.index) = (4, 4);
    }
    plan
}

/// A record that is refused, or that there is twice.
fn faults() -> Vec<Contents> {
    let with = |change: fn(&mut Contents)| {
        let mut c = rounds();
        change(&mut c);
        c
    };
    let extents = |c: &mut Contents, id: u64| c.streams.iter().position(|s| s.id == id).expect("a stream");
    let lost = |id: u64| {
        let mut c = rounds();
        let i = extents(&mut c, id);
        c.streams[i].extents[0] = at_block(0, 4096, 1 << 30);
        c
    };
    let mut all: Vec<Contents> = [STREAMS[0], STREAMS[1], STREAMS[2], FILE].map(lost).into();
    all.extend([
        with(|c| c.files[0].entries[1].key = Key::Wrong),
        with(|c| c.files[0].entries.push(entry(Key::Hashed, "none", ABSENT))),
        with(|c| c.files[0].attributes[1].data = Data::Embedded(vec![0; 3])),
        with(|c| c.files[2].entries[0].key = Key::Wrong),
        with(|c| c.files[1].inode.fields[0].data.truncate(3)),
        with(|c| c.files.push(c.files[1].clone())),
        with(|c| c.files[3].attributes[0].name = b"other".to_vec()),
        with(|c| c.streams[0].extents[1].logical -= 1),
    ]);
    all
}

/// Each node of a stick's trees at fault: of another level, and in one way more.
fn spoiled(image: &[u8]) -> Vec<Vec<u8>> {
    let is_node = |b: &[u8]| matches!(get32(b, KIND) & 0xffff, BTREE | BTREE_NODE);
    let levels: [Change; 2] =
        [|b| put16(b, LEVEL, get16(b, LEVEL).wrapping_add(1)), |b| put16(b, LEVEL, get16(b, LEVEL).saturating_sub(1))];
    let others: [Change; 5] = [
        |b| put16(b, LEVEL, TOO_HIGH),
        |b| put16(b, FLAGS, get16(b, FLAGS) | HASHED),
        |b| put16(b, FLAGS, get16(b, FLAGS) ^ NODE_ROOT),
        |b| put32(b, KIND, OTHER_KIND),
        |_| {},
    ];
    let nodes: Vec<usize> = (0..image.len() / BLOCK).filter(|i| is_node(&image[i * BLOCK..])).collect();
    let spoil = |(k, i): (usize, usize), changes: &[Change]| {
        let (mut out, change) = (image.to_vec(), k % changes.len());
        let block = &mut out[i * BLOCK..][..BLOCK];
        changes[change](block);
        seal(block);
        // The last of the others has nothing wrong but its checksum.
        block[0] ^= u8::from(change == 4);
        out
    };
    let each = nodes.into_iter().enumerate();
    each.flat_map(|node| [spoil(node, &levels), spoil(node, &others)]).collect()
}

/// What is asked about an image.
#[derive(Clone, Copy, Debug, PartialEq, Eq)]
pub enum Asked {
    /// Every call on every id, and the listing cut at each line.
    All,
    Some,
    /// The listing and its measure.
    Listing,
}

pub struct Edge {
    pub image: Vec<u8>,
    pub asked: Asked,
}

/// Made once.
pub fn edges() -> &'static [Edge] {
    static EDGES: OnceLock<Vec<Edge>> = OnceLock::new();
    EDGES.get_or_init(made)
}

fn made() -> Vec<Edge> {
    let image = |plan: Plan| make(plan).image;
    let chains = [64, 65].map(|depth| image(wide(large::chain(depth, 1))));
    let alone = contents(vec![file(ROOT)]);
    let whole: Vec<Vec<u8>> = [plan(rounds()), wide(rounds()), tall(rounds()), plan(alone)].map(image).into();
    let faults = faults().into_iter().flat_map(|c| [wide(c.clone()), tall(c)]).map(image);
    let spoiled = spoiled(&whole[2]);
    let long = long::sticks().into_iter().map(|stick| stick.image).collect();
    let all = [whole, chains.into(), faults.collect()].concat();
    let each = [(all, Asked::All), (spoiled, Asked::Some), (long, Asked::Listing)].into_iter();
    each.flat_map(|(images, asked)| images.into_iter().map(move |image| Edge { image, asked })).collect()
}

fn on(id: u64) -> Vec<Call> {
    let mut out = vec![Call::Link { id }];
    for place in [0, 1, 2, 3, 9] {
        out.extend([Call::Entry { id, place }, Call::Xattr { id, place }, Call::XattrBytes { id, place }]);
        out.push(Call::Entries { id, place, length: 300 });
    }
    out.extend([0, 5].map(|place| Call::Extent { id, place }));
    out.extend([0, SIZE - 1, SIZE, 1 << 40].map(|offset| Call::Read { id, offset, length: 10 }));
    out.extend((0..=5).map(|kind| Call::Replaced { kind, id, place: 1 }));
    let kinds = [3, 4, 8, 9].into_iter();
    out.extend(kinds.flat_map(|kind| [0, 1, 9].map(|place| Call::Mark { id, kind, place })));
    out
}

/// Every call on every id.
fn calls() -> Vec<Call> {
    let paths = ["", "data", "DIR/data", "dir/nowhere", "data/x", "link", "é", "none"];
    let mut out: Vec<Call> = paths.map(|path| Call::Lookup { path: path.into() }).into();
    out.push(Call::Lookup { path: vec![0xff] });
    out.push(Call::Marked { mark: vec![0; 24] });
    [ROOT, DIRECTORY, LINK, PACKED, FILE, ABSENT, STREAMS[0]].into_iter().for_each(|id| out.extend(on(id)));
    out
}

pub fn requests(asked: Asked, r: &mut Random) -> Vec<Drawn> {
    let mut calls = calls();
    r.shuffle(&mut calls);
    match asked {
        Asked::All => {}
        Asked::Some => calls.truncate(calls.len() / SHARE),
        Asked::Listing => calls.clear(),
    }
    let call = |call: &Call, r: &mut Random| (Request::from(call), call.room().unwrap_or_else(|| room(r)));
    let mut out: Vec<(Request, usize)> = calls.iter().map(|c| call(c, r)).collect();
    for what in [what::OPEN, what::LIST, what::MEASURE, what::CHECKPOINTS, what::PART, what::WRONG_WORDS + 1] {
        out.push((Request::of(what), room(r)));
    }
    out.into_iter().map(|(request, room)| Drawn { request, room }).collect()
}
