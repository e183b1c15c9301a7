//! Spoils an image, and mends the checksums of what it touched, so that readers get past them.

mod fields;
mod records;
mod survey;

use crate::block::{get16, get32, get64, put, put16, put32, put64, seal};
use crate::random::Random;
use fields::Field;
use survey::Survey;

/// Where the damage is done.
#[derive(Clone, Copy, Debug, PartialEq, Eq)]
pub enum Aim {
    Anywhere,
    /// What opening a container reads: block 0, the ring, the container's object map.
    Opening,
    /// What a volume's tree holds.
    Files,
}

pub fn damage(image: &[u8], seed: u64) -> Vec<u8> {
    damage_at(image, Aim::Anywhere, seed)
}

pub fn damage_at(image: &[u8], aim: Aim, seed: u64) -> Vec<u8> {
    let survey = Survey::of(image, aim);
    let mut d = Damage { aim, survey, image: image.to_vec(), last: None, r: Random::new(!seed) };
    for _ in 0..d.r.pick(&[1, 1, 1, 2, 3]) {
        d.once();
    }
    d.image
}

struct Damage {
    aim: Aim,
    survey: Survey,
    image: Vec<u8>,
    last: Option<u64>,
    r: Random,
}

impl Damage {
    fn once(&mut self) {
        if self.survey.blocks.is_empty() {
            self.cut();
            return;
        }
        if self.aim == Aim::Files && self.r.chance(4, 5) {
            if !(self.r.chance(1, 8) && self.tail()) {
                self.field(|b, r| records::pick(b, r).or_else(|| fields::pick(b, r)));
            }
            return;
        }
        match self.r.below(36) {
            0..=19 => self.field(fields::pick),
            20..=23 => self.layout(),
            24..=28 => self.anywhere(),
            29 => self.copy(),
            30 => self.swap(),
            31 => self.empty(),
            _ => self.cut(),
        }
    }

    /// The block that was spoiled before, or another.
    fn block(&mut self) -> u64 {
        let again = self.last.filter(|_| self.r.chance(1, 3));
        let block = again.unwrap_or_else(|| self.r.pick(&self.survey.blocks));
        self.last = Some(block);
        block
    }

    fn bytes(&mut self, block: u64) -> Option<&mut [u8]> {
        let size = self.survey.block_size;
        let at = block as usize * size;
        self.image.get_mut(at..at + size)
    }

    /// A known field gets a value at some edge.
    fn field(&mut self, pick: fn(&[u8], &mut Random) -> Option<Field>) {
        let block = self.block();
        let size = self.survey.block_size;
        let edges = self.survey.edges();
        let mut r = self.r.fork();
        let Some(b) = self.bytes(block) else { return };
        let Some(f) = pick(b, &mut r) else { return };
        let old = read(b, f);
        let mut choice = edges.to_vec();
        choice.extend([old.wrapping_add(1), old.wrapping_sub(1), old ^ 1 << r.below(8 * f.width as u64), r.draw()]);
        choice.extend([0, 1, 2, 3, u64::MAX, u64::MAX - 1, 1 << (8 * f.width - 1), size as u64]);
        let known = !f.values.is_empty() && r.chance(1, 2);
        write(b, f, if known { r.pick(f.values) } else { r.pick(&choice) });
        self.mend(block);
    }

    /// A node's table of contents reaches about as far as the node.
    fn layout(&mut self) {
        let block = self.block();
        let mut r = self.r.fork();
        let Some(b) = self.bytes(block) else { return };
        if !fields::is_node(b) {
            return;
        }
        let room = b.len() - fields::DATA;
        let keys = room - r.pick(&[0, 1, 39, 40, 41]) + r.pick(&[0, 0, 0, 1]);
        let first = if r.chance(1, 2) { 0 } else { r.place(keys.min(0xffff)) };
        put16(b, 40, first as u16);
        put16(b, 42, (keys - first).min(0xffff) as u16);
        self.mend(block);
    }

    /// A bit, a byte or a word.
    fn anywhere(&mut self) {
        let block = self.block();
        let mut r = self.r.fork();
        let Some(b) = self.bytes(block) else { return };
        // Most of what is read stands at the block's start.
        let reach = if r.chance(2, 3) { 256 } else { b.len() };
        let at = r.place(reach);
        match r.below(3) {
            0 => b[at] ^= 1 << r.below(8),
            1 => b[at] = r.pick(&[0, 1, 0x7f, 0x80, 0xff]),
            _ => put(b, at / 4 * 4, &r.pick(&[0u32, 1, 0x7fff_ffff, 0x8000_0000, u32::MAX]).to_le_bytes()),
        }
        self.mend(block);
    }

    /// An extent in a block of which the image has a part; false where there is no extent.
    fn tail(&mut self) -> bool {
        let (block, size) = (self.block(), self.survey.block_size);
        let last = (self.image.len() / size) as u64;
        let mut r = self.r.fork();
        let Some(b) = self.bytes(block) else { return false };
        let Some(at) = records::extent(b, &mut r) else { return false };
        let length = get64(b, at).min(2 * size as u64);
        put64(b, at, r.pick(&[length, 100, 2000]));
        put64(b, at + 8, last);
        self.mend(block);
        let n = r.pick(&[1, 50, 100, 2000, size - 1]);
        self.image.resize(last as usize * size + n, 0x55);
        true
    }

    fn copy(&mut self) {
        let (from, to) = (self.block(), self.block());
        let Some(b) = self.bytes(from).map(|b| b.to_vec()) else { return };
        if let Some(to) = self.bytes(to) {
            to.copy_from_slice(&b);
        }
    }

    fn swap(&mut self) {
        let (one, other) = (self.block(), self.block());
        let Some(a) = self.bytes(one).map(|b| b.to_vec()) else { return };
        let Some(b) = self.bytes(other).map(|b| b.to_vec()) else { return };
        self.bytes(one).expect("read before").copy_from_slice(&b);
        self.bytes(other).expect("read before").copy_from_slice(&a);
    }

    fn empty(&mut self) {
        let block = self.block();
        if let Some(b) = self.bytes(block) {
            b.fill(0);
        }
    }

    /// The image ends sooner: anywhere, or about the edge of a block that matters.
    fn cut(&mut self) {
        let size = self.survey.block_size;
        let n = if self.survey.blocks.is_empty() || self.r.chance(1, 3) {
            self.r.place(self.image.len() + 1)
        } else {
            let edge = (self.block() as usize + self.r.place(2)) * size;
            edge.saturating_add(self.r.place(3)).saturating_sub(1)
        };
        self.image.truncate(n);
    }

    fn mend(&mut self, block: u64) {
        if self.r.chance(9, 10) {
            if let Some(b) = self.bytes(block) {
                seal(b);
            }
        }
    }
}

fn read(b: &[u8], f: Field) -> u64 {
    match f.width {
        2 => get16(b, f.at).into(),
        4 => get32(b, f.at).into(),
        _ => get64(b, f.at),
    }
}

fn write(b: &mut [u8], f: Field, n: u64) {
    match f.width {
        2 => put16(b, f.at, n as u16),
        4 => put32(b, f.at, n as u32),
        _ => put64(b, f.at, n),
    }
}
