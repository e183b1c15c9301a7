//! Request 10: the bookmarks of records. Where a record stands is stated by how the sticks here are written, or by a plain
//! search for its bytes.

use sticks::block::{get16, get32, put16, put64, FSTREE};
use sticks::contents::Contents;
use sticks::gpt::around;
use sticks::plan::{places, Odd, Save};
use sticks::sums::name_hash;
use sticks::volume::{Lost, Volume, FAR};
use sticks::{make, Plan};

use super::stick::{changed, contents, cut, directory, empty, file, image, plan, BLOCK, ROOT, TREE_ROOT};
use super::Said::{Bytes, Refused, Text};
use super::{group, Group, Said, Stated};
use crate::calls::call::Call;
use crate::calls::line::hex;
use crate::marks::{Mark, Part, NONE};

const INODE: u8 = 3;
const ENTRY: u8 = 9;
const LATEST: u64 = 100_000;
const LEAF: u16 = 2;

pub fn groups() -> Vec<Group> {
    vec![records(), absent(), leaves(), ghosts(), behind(), buffers(), refused(), saved()]
}

pub fn mark(id: u64, kind: u8, place: u64, said: Said) -> Stated {
    Stated::call(Call::Mark { id, kind, place }, said)
}

pub fn marked(mark: impl Into<Vec<u8>>, said: Said) -> Stated {
    Stated::call(Call::Marked { mark: mark.into() }, said)
}

pub fn line(key: &[u8], value: Option<&[u8]>) -> Said {
    Text(format!("(record {} {})\n", hex(key), value.map_or("-".into(), hex)))
}

/// The number of the first block of a kind.
pub fn block(image: &[u8], size: usize, is: impl Fn(&[u8]) -> bool) -> u64 {
    image.chunks_exact(size).position(is).expect("such a block") as u64
}

fn head(id: u64, kind: u8) -> Vec<u8> {
    (id | u64::from(kind) << 60).to_le_bytes().to_vec()
}

/// Where the bytes stand in a block.
fn part(block: &[u8], bytes: &[u8]) -> Part {
    let at = block.windows(bytes.len()).position(|w| w == bytes).expect("these bytes");
    Part::of(at..at + bytes.len())
}

/// The one record with this key, in some leaf below the root.
fn found(image: &[u8], size: usize, key: &[u8], value: Option<&[u8]>) -> Mark {
    let is_leaf = |b: &[u8]| get32(b, 28) == FSTREE && get16(b, 32) == LEAF;
    let block = block(image, size, |b| is_leaf(b) && b.windows(key.len()).any(|w| w == key));
    let bytes = &image[block as usize * size..][..size];
    Mark { block, key: part(bytes, key), value: value.map_or(NONE, |value| part(bytes, value)) }
}

/// The root's inode and its two entries, and the inodes that they lead to.
pub fn two() -> Contents {
    contents(vec![directory(ROOT, &[("a", 20), ("b", 21)]), file(20), file(21)])
}

/// Its records: an id, a kind and a place, and where it stands. There are 5 entries in the table; keys follow it, and
/// values end where the root's last 40 bytes begin.
pub fn of_two(image: &[u8]) -> [((u64, u8, u64), Mark); 5] {
    let block = block(image, BLOCK, TREE_ROOT);
    let at = |key: (u32, u32), value: (u32, u32)| {
        let [key, value] = [key, value].map(|(offset, length)| Part::new(offset, length));
        Mark { block, key, value }
    };
    [
        ((ROOT, INODE, 0), at((96, 8), (3964, 92))),
        ((ROOT, ENTRY, 0), at((104, 14), (3946, 18))),
        ((ROOT, ENTRY, 1), at((118, 14), (3928, 18))),
        ((20, INODE, 0), at((132, 8), (3836, 92))),
        ((21, INODE, 0), at((140, 8), (3744, 92))),
    ]
}

fn inode_value(id: u64) -> Vec<u8> {
    let mut value = vec![0; 92];
    put64(&mut value, 0, if id == ROOT { 1 } else { ROOT });
    put64(&mut value, 8, id);
    put16(&mut value, 80, 16877);
    value
}

fn entry_line(name: &[u8], id: u64) -> Said {
    let hashed = (name.len() as u32 + 1) | name_hash(name, true) << 10;
    let key = [&head(ROOT, ENTRY)[..], &hashed.to_le_bytes(), name, &[0]].concat();
    line(&key, Some(&[&id.to_le_bytes()[..], &3u64.to_le_bytes(), &8u16.to_le_bytes()].concat()))
}

fn records() -> Group {
    let image = image(two());
    let marks = of_two(&image);
    let inode = |id: u64| line(&head(id, INODE), Some(&inode_value(id)));
    let lines = [inode(ROOT), entry_line(b"a", 20), entry_line(b"b", 21), inode(20), inode(21)];
    let out = marks.map(|((id, kind, place), m)| mark(id, kind, place, Bytes(m.bytes())));
    let back = marks.into_iter().zip(lines).map(|((_, m), line)| marked(m.bytes(), line));
    group("marks of records, and what they lead to", vec![(image.clone(), out.into_iter().chain(back).collect())])
}

fn absent() -> Group {
    let of = [
        (ROOT, ENTRY, 2),
        (ROOT, ENTRY, 1 << 32),
        (ROOT, ENTRY, u64::MAX),
        (ROOT, 4, 0),
        (ROOT, 16, 0),
        (ROOT, 0x10 | INODE, 0),
        (ROOT, 255, 0),
        (22, INODE, 0),
        (ROOT | 1 << 60, INODE, 0),
        (ROOT | 3 << 60, INODE, 0),
        (u64::MAX, 15, 0),
    ];
    let cases = of.map(|(id, kind, place)| mark(id, kind, place, Bytes(Vec::new())));
    group("records that are not there", vec![(image(two()), cases.into())])
}

/// In a leaf that begins with an empty value, that stands where the block ends.
fn leaves() -> Group {
    let empty = places::EMPTY as u8;
    let of = |size: usize| {
        let image = make(places::plan(size)).image;
        let mut cases = Vec::new();
        for id in places::EMPTY_IDS.step_by(2) {
            let place = found(&image, size, &head(id, empty), None);
            let m = Mark { value: Part::new(size as u32, 0), ..place };
            cases.push(mark(id, empty, 0, Bytes(m.bytes())));
            cases.push(marked(m.bytes(), line(&head(id, empty), Some(&[]))));
        }
        (image, cases)
    };
    group("empty values at the block's end", [4096, 16384].map(of).into())
}

fn ghosts() -> Group {
    let (id, kind) = (places::BETWEEN.0, places::BETWEEN.1 as u8);
    let image = make(places::plan(BLOCK)).image;
    let key = |n: u8| [head(id, kind), vec![n; 3]].concat();
    let of = |n: u8, value: Option<&[u8]>| (found(&image, BLOCK, &key(n), value).bytes(), line(&key(n), value));
    let [(one, first), (ghost, none), (three, last)] = [of(1, Some(b"one")), of(2, None), of(3, Some(b"three"))];
    let cases = vec![
        mark(id, kind, 0, Bytes(one.clone())),
        mark(id, kind, 1, Bytes(three.clone())),
        mark(id, kind, 2, Bytes(Vec::new())),
        marked(one, first),
        marked(ghost, none),
        marked(three, last),
    ];
    group("an entry without a value between two records", vec![(image.clone(), cases)])
}

/// With a value of the record at a place of the table past the node.
fn spoiled(place: usize) -> (Vec<u8>, [Mark; 5]) {
    let image = changed(&image(two()), TREE_ROOT, |b| put16(b, 56 + 8 * place + 4, 4090));
    let marks = of_two(&image).map(|(_, m)| m);
    (image, marks)
}

fn behind() -> Group {
    let (second, marks) = spoiled(2);
    let cases = vec![
        mark(ROOT, INODE, 0, Bytes(marks[0].bytes())),
        mark(ROOT, ENTRY, 0, Bytes(marks[1].bytes())),
        mark(ROOT, ENTRY, 1, Refused(2)),
        mark(ROOT, ENTRY, 2, Refused(2)).into_room(0),
        mark(20, INODE, 0, Refused(2)),
    ];
    let (last, marks) = spoiled(4);
    let before = vec![
        mark(ROOT, ENTRY, 1, Bytes(marks[2].bytes())),
        mark(20, INODE, 0, Bytes(marks[3].bytes())),
        mark(20, INODE, 1, Refused(2)),
    ];
    group("what stands behind a record is not read", vec![(second, cases), (last, before)])
}

fn buffers() -> Group {
    let image = image(two());
    let first = of_two(&image)[0].1.bytes();
    let into = |room: usize, said: Said| mark(ROOT, INODE, 0, said).into_room(room);
    let mut cases: Vec<Stated> = [24, 25, 70].map(|room| into(room, Bytes(first.clone()))).into();
    cases.extend([0, 23].map(|room| into(room, Refused(6))));
    cases.extend([0, 23].map(|room| mark(ROOT, INODE, 1, Bytes(Vec::new())).into_room(room)));
    group("marks into buffers", vec![(image, cases)])
}

fn refused() -> Group {
    let asked = |n: u64| vec![mark(ROOT, INODE, 0, Refused(n))];
    let short = |n: u64| vec![mark(ROOT, INODE, 0, Refused(n)).into_room(0)];
    let of_volume = |volume: u64| mark(ROOT, INODE, 0, Refused(4)).of_volume(volume);
    let sealed = Contents { sealed: true, ..contents(vec![file(ROOT)]) };
    let mut far = plan(contents(vec![file(ROOT)]));
    (far.volumes[0].lost, far.spare, far.counted_blocks_present) = (Some(Lost::Far), 2 * FAR, false);
    let fusion = Plan { odd: Some(Odd::Fusion), ..plan(contents(vec![file(ROOT)])) };
    let table = around(&empty());
    let root = found_root(&empty());
    let cases = vec![
        (Vec::new(), asked(1)),
        (vec![0; 8192], short(11)),
        (cut(&table, table.len() / 1024 * 512), asked(12)),
        (make(fusion).image, short(3)),
        (image(sealed), asked(3)),
        (make(far).image, short(8)),
        (empty(), vec![of_volume(1), of_volume(u64::MAX).into_room(0)]),
        (table, vec![mark(ROOT, INODE, 0, Bytes(root.bytes()))]),
    ];
    group("marks refused for the stick or the volume, and of one in a table", cases)
}

/// The record of a volume with the root's inode alone.
pub fn found_root(image: &[u8]) -> Mark {
    let block = block(image, BLOCK, TREE_ROOT);
    Mark { block, key: Part::new(64, 8), value: Part::new(3964, 92) }
}

/// At the number before the latest two entries, and an empty root since.
fn saved() -> Group {
    let mut plan = plan(contents(vec![file(ROOT)]));
    let before = Volume { contents: two(), ..plan.volumes[0].clone() };
    plan.saves = vec![Save { xid: LATEST - 1, volumes: vec![before] }];
    plan.ring.checkpoints.iter_mut().for_each(|c| c.current = c.xid + 1 >= LATEST);
    let image = make(plan).image;
    let (now, then) = states(&image);
    let none = || Bytes(Vec::new());
    let cases = vec![
        mark(ROOT, INODE, 0, Bytes(now.bytes())).at(LATEST),
        mark(ROOT, INODE, 0, Bytes(then[0].bytes())).at(LATEST - 1),
        mark(ROOT, ENTRY, 1, none()).at(LATEST),
        mark(ROOT, ENTRY, 1, Bytes(then[2].bytes())).at(LATEST - 1),
        mark(ROOT, ENTRY, 1, Refused(6)).into_room(23).at(LATEST - 1),
        mark(ROOT, ENTRY, 2, none()).at(LATEST - 1),
        mark(ROOT, ENTRY, 1, Refused(4)).of_volume(1).at(LATEST - 1),
        mark(ROOT, ENTRY, 1, Refused(13)).at(LATEST + 1),
        mark(ROOT, ENTRY, 1, Refused(13)).into_room(0).at(0),
        marked(then[2].bytes(), entry_line(b"b", 21)).at(LATEST),
        marked(now.bytes(), line(&head(ROOT, INODE), Some(&inode_value(ROOT)))).at(LATEST - 1),
        marked(now.bytes(), Refused(6)).into_room(20).at(LATEST - 1),
        marked(now.bytes(), Refused(13)).at(LATEST + 1),
        marked(Vec::new(), Refused(13)).into_room(0).at(LATEST + 1),
        marked(Vec::new(), Refused(1)).into_room(0).at(LATEST),
        marked(Mark { block: u64::MAX, ..now }.bytes(), Refused(1)).at(LATEST - 1),
    ];
    group("marks at an earlier checkpoint", vec![(image, cases)])
}

/// The record of the later root, and those of the earlier one.
fn states(image: &[u8]) -> (Mark, [Mark; 5]) {
    let roots: Vec<u64> = (0..).zip(image.chunks_exact(BLOCK)).filter(|(_, b)| TREE_ROOT(b)).map(|(i, _)| i).collect();
    let entries = |block: &&u64| get32(&image[**block as usize * BLOCK..], 36);
    let [now, then] = [1, 5].map(|n| *roots.iter().find(|b| entries(b) == n).expect("a root"));
    let earlier = of_two(image).map(|(_, m)| Mark { block: then, ..m });
    (Mark { block: now, ..found_root(image) }, earlier)
}
