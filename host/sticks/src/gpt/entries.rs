//! A table's entries, and the part that they lead to.

use crate::block::{put, put64};
use crate::gpt::header::SECTOR;
use crate::gpt::layout::Shape;
use crate::gpt::{Answer, NO_PARTITION};
use crate::random::Random;

const FIRST: usize = 32;
const LAST: usize = 40;
/// The shortest that an entry may be.
pub const SHORTEST: u32 = 128;

/// 7C3457EF-0000-11AA-AA11-00306543ECAC, Apple's for APFS; the first three groups are stored swapped.
const APFS: [u8; 16] = *b"\xef\x57\x34\x7c\x00\x00\xaa\x11\xaa\x11\x00\x30\x65\x43\xec\xac";
/// None, an EFI system, Apple's HFS+, Microsoft's data, and APFS in the order in which it is read aloud.
const OTHERS: [[u8; 16]; 5] = [
    [0; 16],
    *b"\x28\x73\x2a\xc1\x1f\xf8\xd2\x11\xba\x4b\x00\xa0\xc9\x3e\xc9\x3b",
    *b"\x00\x53\x46\x48\x00\x00\xaa\x11\xaa\x11\x00\x30\x65\x43\xec\xac",
    *b"\xa2\xa0\xd0\xeb\xe5\xb9\x33\x44\x87\xc0\x68\xb6\xb7\x26\x99\xc7",
    *b"\x7c\x34\x57\xef\x00\x00\x11\xaa\xaa\x11\x00\x30\x65\x43\xec\xac",
];

/// Sectors, the last one included.
#[derive(Clone, Copy, Debug, PartialEq, Eq)]
pub struct Place {
    pub first: u64,
    pub last: u64,
}

impl Place {
    /// Offset and length in bytes.
    pub fn bytes(self) -> (usize, usize) {
        (self.first as usize * SECTOR, (self.last + 1 - self.first) as usize * SECTOR)
    }
}

/// An entry of the type at the array's start.
pub fn put_apfs(array: &mut [u8], place: Place) {
    put(array, 0, &APFS);
    put64(array, FIRST, place.first);
    put64(array, LAST, place.last);
}

/// The array while it is drawn, with one more entry behind its last.
pub struct Entries<'r> {
    pub bytes: Vec<u8>,
    count: usize,
    length: usize,
    /// Where the first entry of the type leads, and where others do.
    target: Place,
    decoy: Place,
    /// How many whole sectors the image has.
    sectors: u64,
    r: &'r mut Random,
}

/// Nothing where there are too few entries or sectors for it.
type Kind = fn(&mut Entries) -> Option<Answer>;

const ONE: (&str, Kind) = ("one of the type", |e| e.only(e.target));
const NONE: &str = "no entries";
const KINDS: [(&str, Kind); 14] = [
    ONE,
    ("several of the type", |e| e.several()),
    ("several of the type, the first bad", |e| e.first_bad()),
    ("none of the type", |_| Some(Err(NO_PARTITION))),
    ("types that differ in a bit", |e| e.near()),
    ("one of the type behind the last", |e| e.behind()),
    ("last before first", |e| e.backwards()),
    ("last on the end", |e| e.only(Place { last: e.sectors - 1, ..e.target })),
    ("last past the end by one", |e| e.only(Place { last: e.sectors, ..e.target })),
    ("last far past the end", |e| e.far()),
    ("a part of 512 bytes", |e| e.only(Place { last: e.target.first, ..e.target })),
    ("a part of 4,096 bytes", |e| e.only(Place { last: e.target.first + 7, ..e.target })),
    ("a part that ends too soon", |e| e.cut()),
    ("a part from sector 0 on", |e| e.only(Place { first: 0, ..e.target })),
];

pub fn names() -> Vec<&'static str> {
    KINDS.iter().map(|(name, _)| *name).chain([NONE]).collect()
}

impl<'r> Entries<'r> {
    pub fn new(shape: Shape, target: Place, decoy: Place, sectors: u64, r: &'r mut Random) -> Entries<'r> {
        let (count, length) = (shape.count as usize, shape.entry as usize);
        Entries { bytes: vec![0; (count + 1) * length], count, length, target, decoy, sectors, r }
    }

    /// Fills the array; what kind of entries it has, and the part.
    pub fn draw(&mut self) -> (&'static str, Answer) {
        for i in 0..=self.count {
            self.other(i);
        }
        if self.count == 0 {
            return (NONE, Err(NO_PARTITION));
        }
        loop {
            let (name, kind) = if self.r.chance(1, 3) { ONE } else { self.r.pick(&KINDS) };
            if let Some(answer) = kind(self) {
                return (name, answer);
            }
        }
    }

    fn put(&mut self, i: usize, kind: [u8; 16], place: Place) {
        let b = &mut self.bytes[i * self.length..(i + 1) * self.length];
        put(b, 0, &kind);
        put64(b, FIRST, place.first);
        put64(b, LAST, place.last);
    }

    /// An entry of another type. In a longer one an entry of the type may stand where the next would begin.
    fn other(&mut self, i: usize) {
        let junk = self.r.bytes(self.length);
        put(&mut self.bytes, i * self.length, &junk);
        let kind = self.r.pick(&OTHERS);
        self.put(i, kind, self.decoy);
        if self.length > SHORTEST as usize && self.r.chance(1, 2) {
            put_apfs(&mut self.bytes[i * self.length + SHORTEST as usize..], self.decoy);
        }
    }

    fn any(&mut self) -> usize {
        self.r.pick(&[0, self.count - 1, self.r.clone().place(self.count)])
    }

    /// An entry of the type, and no other.
    fn only(&mut self, place: Place) -> Option<Answer> {
        let i = self.any();
        self.put(i, APFS, place);
        Some(self.leads(place))
    }

    fn leads(&self, place: Place) -> Answer {
        let within = place.first <= place.last && place.last < self.sectors;
        if within {
            Ok(place.bytes())
        } else {
            Err(NO_PARTITION)
        }
    }

    /// Two places in order.
    fn two(&mut self) -> Option<(usize, usize)> {
        if self.count < 2 {
            return None;
        }
        let later = 1 + self.r.place(self.count - 1);
        Some((self.r.place(later), later))
    }

    fn several(&mut self) -> Option<Answer> {
        let (first, later) = self.two()?;
        for i in first + 1..=later {
            self.put(i, APFS, self.decoy);
        }
        self.put(first, APFS, self.target);
        Some(self.leads(self.target))
    }

    fn first_bad(&mut self) -> Option<Answer> {
        let (first, later) = self.two()?;
        let t = self.target;
        let bad = [Place { last: t.first.wrapping_sub(1), ..t }, Place { last: self.sectors, ..t }];
        let bad = self.r.pick(&bad);
        self.put(first, APFS, bad);
        self.put(later, APFS, t);
        Some(Err(NO_PARTITION))
    }

    fn near(&mut self) -> Option<Answer> {
        for i in 0..self.count {
            let mut kind = APFS;
            kind[self.r.place(16)] ^= 1 << self.r.below(8);
            self.put(i, kind, self.target);
        }
        Some(Err(NO_PARTITION))
    }

    fn behind(&mut self) -> Option<Answer> {
        self.put(self.count, APFS, self.target);
        Some(Err(NO_PARTITION))
    }

    fn backwards(&mut self) -> Option<Answer> {
        let t = self.target;
        let first = self.r.pick(&[t.last + 1, t.last + 1, t.last + 1000, u64::MAX]);
        self.only(Place { first, ..t })
    }

    /// Sums and products of 64 bits would lead back into the image.
    fn far(&mut self) -> Option<Answer> {
        let t = self.target;
        let both = |n: u64| Place { first: t.first + n, last: t.last + n };
        let last = |last: u64| Place { last, ..t };
        let place = self.r.pick(&[
            both(1 << 55),
            both(1 << 63),
            last(t.last + (1 << 55)),
            last((1 << 55) - 1),
            last(u64::MAX),
            last(self.sectors + 1000),
        ]);
        self.only(place)
    }

    fn cut(&mut self) -> Option<Answer> {
        let n = self.target.last - self.target.first;
        if n == 0 {
            return None;
        }
        let last = self.target.last - self.r.pick(&[1, self.r.clone().between(1, n)]);
        self.only(Place { last, ..self.target })
    }
}
