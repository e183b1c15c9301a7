//! Marks to be handed in: as they were handed out, about every edge, and of no sense.

use sticks::random::Random;

use crate::calls::call::Call;
use crate::marks::{Mark, Part, LENGTH, NONE};
use crate::trees::Head;

/// What marks are drawn about.
pub struct Ground<'a> {
    /// Bytes of a block.
    pub size: u64,
    /// Blocks that are counted.
    pub count: u64,
    /// Bytes of the image.
    pub length: u64,
    /// Those of records.
    pub records: &'a [Mark],
    /// Those of entries without a value.
    pub ghosts: &'a [Mark],
    /// Those of another stick.
    pub strange: &'a [Mark],
}

/// What is drawn, and how.
pub type Kind = (&'static str, &'static str);

pub struct Drawn {
    pub kind: Kind,
    pub mark: Vec<u8>,
}

/// A block's number, and what becomes of it: taken, refused, or either by the image.
type Block = (&'static str, fn(&Ground, &mut Random) -> u64, &'static [bool]);
/// A key's or a value's place in a block of so many bytes, and whether it lies inside.
type Place = (&'static str, fn(u32, &mut Random) -> Part, bool);
type Whole = (&'static str, fn(&Ground, &mut Random) -> Option<Vec<u8>>, &'static [bool]);

const TAKEN: &[bool] = &[true];
const REFUSED: &[bool] = &[false];
const EITHER: &[bool] = &[true, false];

const BLOCKS: [Block; 9] = [
    ("0", |_, _| 0, TAKEN),
    ("the last that fits", |g, _| g.blocks() - 1, TAKEN),
    ("one past the image", |g, _| g.blocks(), REFUSED),
    ("the last that is counted", |g, _| g.count.wrapping_sub(1), EITHER),
    ("the count", |g, _| g.count, EITHER),
    ("2^64 - 1", |_, _| u64::MAX, REFUSED),
    ("of a product just below 2^64", |g, _| g.around() - 2, REFUSED),
    ("of the product 2^64", |g, _| g.around() - 1, REFUSED),
    ("of a product past 2^64", |g, r| g.around() + r.below(g.blocks()), REFUSED),
];

const PLACES: [Place; 11] = [
    ("to the block's end", |size, r| ending(size, r.below(u64::from(size) + 1) as u32), true),
    ("to one byte past it", |size, r| ending(size + 1, 1 + r.below(u64::from(size)) as u32), false),
    ("of no bytes at the block's end", |size, _| Part::new(size, 0), true),
    ("of no bytes past it", |size, _| Part::new(size + 1, 0), false),
    ("of no bytes at the block's start", |_, _| Part::new(0, 0), true),
    ("all of the block", |size, _| Part::new(0, size), true),
    ("one byte more than the block", |size, _| Part::new(0, size + 1), false),
    ("inside", inside, true),
    ("with an end past 2^32", wrapping, false),
    ("of the offset 2^32 - 1", |size, r| Part::new(u32::MAX, r.pick(&[0, 1, 2, size])), false),
    ("of the length 2^32 - 1", |size, r| Part::new(r.pick(&[0, 1, size, size + 1]), u32::MAX), false),
];

const LENGTHS: [usize; 3] = [0, LENGTH - 1, LENGTH + 1];
const LENGTH_NAMES: [&str; 4] = ["0", "23", "25", "another"];

const WHOLES: [Whole; 9] = [
    ("as it was handed out", |g, r| one_of(g.records, r), TAKEN),
    ("of an entry without a value", |g, r| one_of(g.ghosts, r), TAKEN),
    ("of another stick", |g, r| one_of(g.strange, r), EITHER),
    ("with a bit turned over", |g, r| one_of(g.records, r).map(|mark| turned(mark, r)), EITHER),
    ("anywhere", |g, r| Some(g.anywhere(r).bytes()), TAKEN),
    ("random bytes", |_, r| Some(r.bytes(LENGTH)), REFUSED),
    ("without a value", |g, r| Some(Mark { value: NONE, ..g.one(r) }.bytes()), TAKEN),
    ("without a key", |g, r| Some(Mark { key: NONE, ..g.one(r) }.bytes()), REFUSED),
    ("without a value, its key past the block", keyless, REFUSED),
];

/// Of so many bytes, the last before `end`.
fn ending(end: u32, length: u32) -> Part {
    Part::new(end - length, length)
}

fn inside(size: u32, r: &mut Random) -> Part {
    let offset = r.below(u64::from(size) + 1) as u32;
    Part::new(offset, r.below(u64::from(size - offset).min(40) + 1) as u32)
}

/// The sum is inside in 32 bits.
fn wrapping(size: u32, r: &mut Random) -> Part {
    let below = 1 + r.below(u64::from(size)) as u32;
    Part::new(0u32.wrapping_sub(below), below + r.below(u64::from(size) + 1) as u32)
}

fn one_of(marks: &[Mark], r: &mut Random) -> Option<Vec<u8>> {
    (!marks.is_empty()).then(|| r.pick(marks).bytes())
}

fn turned(mut mark: Vec<u8>, r: &mut Random) -> Vec<u8> {
    mark[r.place(LENGTH)] ^= 1 << r.below(8);
    mark
}

fn keyless(g: &Ground, r: &mut Random) -> Option<Vec<u8>> {
    let size = g.size as u32;
    let key = r.pick(&[Part::new(size + 1, 0), Part::new(0, size + 1), Part::new(size, 1)]);
    Some(Mark { key, value: NONE, ..g.one(r) }.bytes())
}

impl Ground<'_> {
    /// That the image has.
    fn blocks(&self) -> u64 {
        self.length / self.size
    }

    /// So many blocks have 2^64 bytes.
    fn around(&self) -> u64 {
        u64::MAX / self.size + 1
    }

    fn anywhere(&self, r: &mut Random) -> Mark {
        let size = self.size as u32;
        let value = if r.chance(1, 4) { NONE } else { inside(size, r) };
        Mark { block: r.below(self.blocks()), key: inside(size, r), value }
    }

    /// A mark that is taken.
    fn one(&self, r: &mut Random) -> Mark {
        match self.records {
            [_, ..] if r.chance(2, 3) => r.pick(self.records),
            _ => self.anywhere(r),
        }
    }

    /// Of each kind, if there is one.
    pub fn all(&self, r: &mut Random) -> Vec<Drawn> {
        let mut out: Vec<Drawn> = Vec::new();
        let mut push = |kind: Kind, mark: Vec<u8>| out.push(Drawn { kind, mark });
        for (name, block, _) in BLOCKS {
            push(("block", name), Mark { block: block(self, r), ..self.one(r) }.bytes());
        }
        for (name, place, _) in PLACES {
            push(("key", name), Mark { key: place(self.size as u32, r), ..self.one(r) }.bytes());
            push(("value", name), Mark { value: place(self.size as u32, r), ..self.one(r) }.bytes());
        }
        let another = LENGTH + 2 + r.place(40);
        for (name, n) in LENGTH_NAMES.into_iter().zip(LENGTHS.into_iter().chain([another])) {
            let mut mark = self.one(r).bytes();
            mark.resize(n, 0);
            push(("length", name), mark);
        }
        for (name, draw, _) in WHOLES {
            draw(self, r).into_iter().for_each(|mark| push(("whole", name), mark));
        }
        out
    }
}

/// Every kind, and whether it is to be taken, refused or both.
pub fn kinds() -> Vec<(Kind, &'static [bool])> {
    let outcome = |fits: bool| if fits { TAKEN } else { REFUSED };
    let blocks = BLOCKS.iter().map(|(name, _, outcome)| (("block", *name), *outcome));
    let places = PLACES.iter().flat_map(|(name, _, fits)| ["key", "value"].map(|what| ((what, *name), outcome(*fits))));
    let lengths = LENGTH_NAMES.iter().map(|name| (("length", *name), REFUSED));
    let wholes = WHOLES.iter().map(|(name, _, outcome)| (("whole", *name), *outcome));
    blocks.chain(places).chain(lengths).chain(wholes).collect()
}

/// Of a volume that may not open, and of a container that may not.
pub fn each(r: &mut Random) -> Vec<Call> {
    let (id, place) = (r.pick(&[2, 0, 16, u64::MAX]), r.pick(&[0, 0, 1, u64::MAX]));
    let zeros = Mark { block: 0, key: Part::new(0, 0), value: NONE }.bytes();
    let mark = r.pick(&[zeros, vec![0; LENGTH], vec![0xff; LENGTH], Vec::new()]);
    vec![Call::Mark { id, kind: r.pick(&[3, 9, 0, 16, 255]), place }, Call::Marked { mark }]
}

/// Ids and kinds of which there may be no record, near those that there are.
pub fn absent(heads: &[Head], r: &mut Random) -> Vec<Head> {
    let (id, kind) = if heads.is_empty() { (2, 3) } else { r.pick(heads) };
    let other = r.below(16) as u8;
    vec![
        (id, other),
        (id, r.pick(&[kind | 0x10, kind | 0xf0, 16, 255])),
        (r.pick(&[0, 1, id.wrapping_add(1), id | 1 << 60, id | u64::from(kind) << 60, u64::MAX]), kind),
    ]
}
