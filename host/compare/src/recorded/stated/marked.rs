//! Request 10: bookmarks that are handed in, about each edge.

use sticks::block::put;
use sticks::contents::Contents;
use sticks::gpt::around;
use sticks::plan::Odd;
use sticks::{make, Plan};

use super::marks::{block, found_root, line, marked};
use super::stick::{contents, cut, empty, file, image, plan, unsealed, with_zero, BLOCK, ROOT, SUPERBLOCK, TREE_ROOT};
use super::Said::Refused;
use super::{group, Group, Said, Stated};
use crate::marks::{Mark, Part, LENGTH, NONE};

const SIZE: u32 = BLOCK as u32;
const LARGEST: u32 = 65_536;
/// So many blocks of 4,096 bytes have 2^64.
const AROUND: u64 = 1 << 52;
const MAGIC: &[u8] = b"NXSB";

pub fn groups() -> Vec<Group> {
    vec![blocks(), counts(), objects(), keys(), values(), largest(), lengths(), buffers(), refused()]
}

/// The key at a place of block 0 that has NXSB there, and no value.
fn at(block: u64) -> Mark {
    Mark { block, key: Part::new(32, 4), value: NONE }
}

fn taken(mark: Mark, key: &[u8], value: Option<&[u8]>) -> Stated {
    marked(mark.bytes(), line(key, value))
}

fn refuse(mark: Mark) -> Stated {
    marked(mark.bytes(), Refused(1))
}

fn blocks() -> Group {
    let image = empty();
    let count = (image.len() / BLOCK) as u64;
    let last = &image[image.len() - BLOCK + 32..][..4];
    let mut cases = vec![taken(at(0), MAGIC, None), taken(at(count - 1), last, None)];
    let past = [count, 1 << 32, AROUND - 2, AROUND - 1, AROUND, AROUND + count - 1, u64::MAX];
    cases.extend(past.map(|n| refuse(at(n))));
    cases.push(marked(at(u64::MAX).bytes(), Refused(1)).into_room(0));
    let tail = [&image[..], &[7; BLOCK - 1]].concat();
    let whole = [&image[..], &[7; BLOCK]].concat();
    let part = vec![taken(at(count - 1), last, None), refuse(at(count))];
    let more = vec![taken(at(count), &[7; 4], None), refuse(at(count + 1))];
    group("marks handed in: blocks", vec![(image, cases), (tail, part), (whole, more)])
}

/// Blocks that are counted and not there, and blocks that are there and not counted.
fn counts() -> Group {
    let more = Plan { spare: 3, counted_blocks_present: false, ..plan(contents(vec![file(ROOT)])) };
    let image = make(more).image;
    let blocks = (image.len() / BLOCK) as u64;
    let cases = vec![refuse(at(blocks)), refuse(at(blocks + 2)), refuse(at(blocks + 3))];
    let table = around(&empty());
    let inside = (empty().len() / BLOCK) as u64;
    // The stick goes on behind its part.
    let tabled = vec![taken(at(0), MAGIC, None), refuse(at(inside))];
    group("marks handed in: block counts, and a part", vec![(image, cases), (table, tabled)])
}

/// Whatever stands there.
fn objects() -> Group {
    let image = unsealed(&empty(), TREE_ROOT);
    let tree = found_root(&image);
    let whole = &image[tree.block as usize * BLOCK..][..BLOCK];
    let other = block(&image, BLOCK, SUPERBLOCK);
    let twice = Mark { value: tree.key, ..tree };
    let cases = vec![
        taken(tree, &whole[64..72], Some(&whole[3964..4056])),
        taken(twice, &whole[64..72], Some(&whole[64..72])),
        taken(at(other), MAGIC, None),
        taken(Mark { key: Part::new(1000, 3), ..at(0) }, &empty()[1000..1003], None),
    ];
    group("marks handed in: nothing else is tested", vec![(image, cases)])
}

/// Places that are taken and refused, of a block of so many bytes.
fn edges(size: u32) -> (Vec<Part>, Vec<Part>) {
    let inside = [(0, 0), (size, 0), (size - 4, 4)];
    let past = [(size + 1, 0), (size, 1), (size - 4, 5), (u32::MAX - 3, 36), (0, u32::MAX), (u32::MAX, 0)];
    (inside.map(|(a, b)| Part::new(a, b)).into(), past.map(|(a, b)| Part::new(a, b)).into())
}

fn bytes(image: &[u8], part: Part) -> &[u8] {
    &image[part.offset as usize..][..part.length as usize]
}

fn keys() -> Group {
    let image = empty();
    let (inside, past) = edges(SIZE);
    let value = Part::new(36, 4);
    let shown = Some(bytes(&image, value));
    let of = |key: Part| Mark { block: 0, key, value };
    let mut cases: Vec<Stated> = inside.iter().map(|key| taken(of(*key), bytes(&image, *key), shown)).collect();
    cases.extend(past.iter().map(|key| refuse(of(*key))));
    cases.extend([Part::new(SIZE + 1, 0), NONE].map(|key| refuse(Mark { key, ..at(0) })));
    cases.push(refuse(of(NONE)));
    group("marks handed in: keys", vec![(image.clone(), cases)])
}

fn values() -> Group {
    let image = empty();
    let (inside, past) = edges(SIZE);
    let of = |value: Part| Mark { value, ..at(0) };
    let mut cases: Vec<Stated> =
        inside.iter().map(|value| taken(of(*value), MAGIC, Some(bytes(&image, *value)))).collect();
    cases.extend(past.iter().map(|value| refuse(of(*value))));
    cases.push(taken(of(NONE), MAGIC, None));
    cases.push(refuse(of(Part::new(u32::MAX, u32::MAX - 1))));
    group("marks handed in: values, and missing ones", vec![(image.clone(), cases)])
}

/// A container of 65,536-byte blocks, in as few of them as it opens with: the ring has one, and no map.
fn large() -> Vec<u8> {
    let mut plan = Plan { block_size: LARGEST as usize, volumes: Vec::new(), slots: Vec::new(), ..Plan::sample() };
    plan.ring.blocks = 1;
    (plan.ring.checkpoints[0].maps, plan.ring.checkpoints[0].length) = (0, 1);
    let mut image = make(plan).image;
    put(&mut image, LARGEST as usize - 4, b"last");
    image
}

fn largest() -> Group {
    let image = large();
    let end = Part::new(LARGEST, 0);
    let last = Part::new(LARGEST - 4, 4);
    let of = |key: Part, value: Part| Mark { block: 0, key, value };
    let blocks = (image.len() / LARGEST as usize) as u64;
    let cases = vec![
        taken(of(end, end), b"", Some(b"")),
        taken(of(last, end), b"last", Some(b"")),
        taken(of(end, last), b"", Some(b"last")),
        taken(Mark { block: blocks - 1, ..of(end, NONE) }, b"", None),
        refuse(of(Part::new(LARGEST + 1, 0), end)),
        refuse(of(end, Part::new(LARGEST + 1, 0))),
        refuse(of(Part::new(1, LARGEST), end)),
        marked(of(Part::new(0, LARGEST), end).bytes(), Refused(6)),
        refuse(Mark { block: blocks, ..of(end, end) }),
        refuse(Mark { block: (1 << 48) - 1, ..of(end, end) }),
        refuse(Mark { block: 1 << 48, ..of(end, end) }),
    ];
    group("marks handed in: blocks of 65,536 bytes", vec![(image, cases)])
}

fn lengths() -> Group {
    let long = |n: usize| {
        let mut mark = at(0).bytes();
        mark.resize(n, 0);
        mark
    };
    let mut cases: Vec<Stated> = [0, 23, 25, 48].map(|n| marked(long(n), Refused(1))).into();
    cases.push(marked(long(LENGTH), line(MAGIC, None)));
    // Zeros for a value that is cut off would be one.
    let cut = Mark { value: Part::new(0, 0), ..at(0) }.bytes();
    cases.extend([20, 23].map(|n| marked(&cut[..n], Refused(1))));
    cases.push(marked(long(25), Refused(1)).into_room(0));
    group("marks of other lengths", vec![(empty(), cases)])
}

fn buffers() -> Group {
    let text = "(record x4e585342 -)\n".len();
    let into = |room: usize, said: Said| marked(at(0).bytes(), said).into_room(room);
    let mut cases: Vec<Stated> = [text, text + 1, text + 40].map(|n| into(n, line(MAGIC, None))).into();
    cases.extend([0, text - 1].map(|n| into(n, Refused(6))));
    cases.push(marked(at(1 << 40).bytes(), Refused(1)).into_room(12));
    group("records that are marked, into buffers", vec![(empty(), cases)])
}

/// Opening's refusals come first, whatever the mark; a volume's do not count.
fn refused() -> Group {
    let both = |n: u64| vec![marked(at(0).bytes(), Refused(n)), marked(Vec::new(), Refused(n)).into_room(0)];
    let table = around(&empty());
    let sealed = image(Contents { sealed: true, ..contents(vec![file(ROOT)]) });
    let volumes = vec![taken(at(0), MAGIC, None), taken(at(0), MAGIC, None).of_volume(u64::MAX)];
    let fusion = Plan { odd: Some(Odd::Fusion), ..plan(contents(vec![file(ROOT)])) };
    let cases = vec![
        (Vec::new(), both(1)),
        (vec![0; 8192], both(11)),
        (cut(&table, table.len() / 1024 * 512), both(12)),
        (make(fusion).image, both(3)),
        (with_zero(&empty(), |b| put(b, 36, &512u32.to_le_bytes())), both(2)),
        (with_zero(&empty(), |b| put(b, 112, &(1u64 << 52).to_le_bytes())), both(8)),
        (sealed, volumes),
    ];
    group("marks handed in where the container does not open, and where the volume does not", cases)
}
