//! Where the arrays, the container and a decoy stand in the image.

use crate::gpt::entries::{Place, SHORTEST};
use crate::gpt::header::{SECTOR, SHORTEST as SHORTEST_HEADER};
use crate::random::Random;

/// A header's and its entries' measures.
#[derive(Clone, Copy, Debug)]
pub struct Shape {
    pub header: u32,
    pub count: u32,
    pub entry: u32,
}

impl Shape {
    pub fn draw(r: &mut Random) -> Shape {
        let header = match r.below(3) {
            0 => SHORTEST_HEADER,
            1 => SECTOR as u32,
            _ => r.between(SHORTEST_HEADER.into(), SECTOR as u64) as u32,
        };
        let entry = if r.chance(2, 3) { SHORTEST } else { r.pick(&[256, 256, 256, 512, 1024, 4096]) };
        let rare = if entry > 256 { 16 } else { 4 };
        let count = if r.chance(1, rare) { r.pick(&[128, 200]) } else { r.pick(&[0, 1, 1, 2, 3, 4, 7]) };
        Shape { header, count, entry }
    }

    pub fn bytes(self) -> usize {
        self.count as usize * self.entry as usize
    }
}

#[derive(Clone, Debug)]
pub struct Layout {
    /// Whole sectors of the image.
    pub sectors: u64,
    /// Bytes behind them.
    pub tail: usize,
    /// The sectors of the primary's and the backup's array.
    pub arrays: [u64; 2],
    /// Which of them ends with the image.
    pub ending: Option<usize>,
    /// Whether the image is a byte too short for that one.
    pub is_cut: bool,
    pub container: Place,
    pub decoy: Place,
}

#[derive(Clone, Copy, PartialEq, Eq)]
enum Area {
    Array(usize),
    Container,
    Decoy,
}

/// What has a place, and how many sectors it takes, in the order in which they stand.
fn areas(container: u64, at_start: bool, shapes: &[Shape; 2], r: &mut Random) -> Vec<(Area, u64)> {
    // One more entry stands behind each array.
    let room = |s: Shape| (s.bytes() + s.entry as usize).div_ceil(SECTOR) as u64;
    let mut areas = vec![(Area::Decoy, r.between(1, 12)), (Area::Container, container)];
    areas.extend([0, 1].map(|i| (Area::Array(i), room(shapes[i]))));
    areas.retain(|(area, _)| !(at_start && *area == Area::Container));
    r.shuffle(&mut areas);
    if r.chance(1, 2) {
        areas.sort_by_key(|(area, _)| *area != Area::Array(0));
    }
    areas
}

impl Layout {
    /// Around a container of so many sectors, which stands at the image's start or somewhere in it.
    pub fn draw(container: u64, at_start: bool, shapes: &[Shape; 2], r: &mut Random) -> Layout {
        let mut out = Layout {
            sectors: 0,
            tail: r.pick(&[0, 0, 0, 1, 91, 92, 300, 511]),
            arrays: [0; 2],
            ending: None,
            is_cut: false,
            container: Place { first: 0, last: container - 1 },
            decoy: Place { first: 0, last: 0 },
        };
        let mut at = if at_start { container.max(2) } else { 2 };
        for (area, n) in areas(container, at_start, shapes, r) {
            at += r.pick(&[0, 0, 0, 1, 5]);
            let place = Place { first: at, last: at + n - 1 };
            match area {
                Area::Array(i) => out.arrays[i] = at,
                Area::Container => out.container = place,
                Area::Decoy => out.decoy = place,
            }
            at += n;
        }
        // A header that went astray may stand before the last sector.
        out.sectors = (at + 2).max(8);
        out.end_with_array(shapes, r);
        out
    }

    /// Some arrays of less than a sector stand behind the last whole one; of no bytes, even at the image's end.
    fn end_with_array(&mut self, shapes: &[Shape; 2], r: &mut Random) {
        let i = r.place(2);
        let bytes = shapes[i].bytes();
        if bytes < SECTOR && r.chance(1, 3) {
            self.arrays[i] = self.sectors;
            self.ending = Some(i);
            self.is_cut = bytes > 0 && r.chance(1, 3);
            self.tail = bytes - usize::from(self.is_cut);
        }
    }

    pub fn length(&self) -> usize {
        self.sectors as usize * SECTOR + self.tail
    }
}
