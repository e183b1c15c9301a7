//! What keeps a header from being intact: each fault spoils one thing of a header that was.

use crate::block::{get32, get64, put32, put64};
use crate::gpt::header::{
    mend, sum_header, ARRAY, ARRAY_SUM, COUNT, ENTRY_LENGTH, LENGTH, OWN, SECTOR, SHORTEST, SUM, UNTESTED,
};
use crate::random::Random;

/// An image with an intact header at byte `at`.
pub struct Spoiled<'i> {
    pub image: &'i mut [u8],
    pub at: usize,
    /// How many whole sectors the image has.
    pub sectors: u64,
    /// Whether the bytes behind them are unused.
    pub free_tail: bool,
    pub r: &'i mut Random,
}

/// Nothing where the header can't be spoiled so.
type Spoil = fn(&mut Spoiled) -> Option<()>;

/// Of fields, after which the sums are mended or left as they were.
const FIELDS: [(&str, Spoil); 14] = [
    ("signature", |s| s.signature()),
    ("own sector", |s| s.own()),
    ("header length 91", |s| s.put32(LENGTH, SHORTEST - 1)),
    ("header length 513", |s| s.put32(LENGTH, 513)),
    ("another header length", |s| s.pick32(LENGTH, &[0, 1, 16, 20, 90, 514, 1024, 92 << 8, 1 << 16 | 92, u32::MAX])),
    ("entry length 64", |s| s.put32(ENTRY_LENGTH, 64)),
    ("entry length 192", |s| s.put32(ENTRY_LENGTH, 192)),
    ("another entry length", |s| {
        s.pick32(ENTRY_LENGTH, &[0, 1, 32, 96, 127, 129, 160, 384, 640, 1 << 31 | 128, u32::MAX])
    }),
    ("array past the end", |s| s.array_past()),
    ("array at 2^55", |s| s.array_from(1 << 55)),
    ("array at 2^63", |s| s.array_from(1 << 63)),
    ("array just below 2^64", |s| s.array_below()),
    ("count past the end", |s| s.count_past()),
    ("entry length past the end", |s| s.length_past()),
];

/// Of a sum, of what is under it, or of the whole header.
const OTHERS: [(&str, Spoil); 9] = [
    ("header sum", |s| s.flip(SUM, 4)),
    ("a bit under the header sum", |s| s.untested()),
    ("array sum", |s| s.array_sum()),
    ("a bit of the array", |s| s.array_bit()),
    ("another count", |s| s.another_count()),
    ("another entry length that is allowed", |s| s.another_length()),
    ("zeros", |s| s.zeros()),
    ("header in the sector before the last", |s| s.elsewhere()),
    ("header behind the last whole sector", |s| s.behind()),
];

pub fn names() -> Vec<String> {
    let fields = FIELDS.iter().flat_map(|(name, _)| [true, false].map(|mended| named(name, mended)));
    fields.chain(OTHERS.iter().map(|(name, _)| name.to_string())).collect()
}

fn named(name: &str, mended: bool) -> String {
    format!("{name}, sums {}", if mended { "mended" } else { "left" })
}

/// Spoils the header for a drawn reason, whose name it tells.
pub fn spoil(s: &mut Spoiled) -> String {
    loop {
        let all = 2 * FIELDS.len() + OTHERS.len();
        // Few images have room for the last fault.
        let place = if s.r.chance(1, 12) { all - 1 } else { s.r.place(all) };
        let (name, spoil) = match place.checked_sub(2 * FIELDS.len()) {
            Some(i) => OTHERS[i],
            None => FIELDS[place / 2],
        };
        if spoil(s).is_none() {
            continue;
        }
        if place >= 2 * FIELDS.len() {
            return name.to_string();
        }
        let mended = place % 2 == 0;
        if mended {
            mend(s.image, s.at);
        }
        return named(name, mended);
    }
}

impl Spoiled<'_> {
    fn put32(&mut self, field: usize, n: u32) -> Option<()> {
        put32(self.image, self.at + field, n);
        Some(())
    }

    fn put64(&mut self, field: usize, n: u64) -> Option<()> {
        put64(self.image, self.at + field, n);
        Some(())
    }

    fn pick32(&mut self, field: usize, from: &[u32]) -> Option<()> {
        let n = self.r.pick(from);
        self.put32(field, n)
    }

    /// A bit of `n` bytes from a field on.
    fn flip(&mut self, field: usize, n: usize) -> Option<()> {
        self.image[self.at + field + self.r.place(n)] ^= 1 << self.r.below(8);
        Some(())
    }

    fn count(&self) -> u64 {
        get32(self.image, self.at + COUNT).into()
    }

    fn entry_length(&self) -> u64 {
        get32(self.image, self.at + ENTRY_LENGTH).into()
    }

    fn array(&self) -> u64 {
        get64(self.image, self.at + ARRAY)
    }

    /// Bytes of the image from the array's start on.
    fn room(&self) -> u64 {
        self.image.len() as u64 - self.array() * SECTOR as u64
    }

    fn signature(&mut self) -> Option<()> {
        if self.r.chance(1, 4) {
            return self.put64(0, 0);
        }
        self.flip(0, 8)
    }

    fn own(&mut self) -> Option<()> {
        let own = get64(self.image, self.at + OWN);
        let other = if own == 1 { self.sectors - 1 } else { 1 };
        let n = self.r.pick(&[0, own + 1, own - 1, other, own ^ 1 << self.r.clone().below(64)]);
        self.put64(OWN, n)
    }

    /// By a sector at least.
    fn array_past(&mut self) -> Option<()> {
        let left = self.image.len() as u64 - self.count() * self.entry_length();
        let least = left / SECTOR as u64 + 1;
        let n = self.r.pick(&[least, least, least + 1, self.sectors + 1, least + 1000, 1 << 40]);
        self.put64(ARRAY, n)
    }

    /// A product of 64 bits starts again at the image's first byte, or at the array.
    fn array_from(&mut self, least: u64) -> Option<()> {
        let n = least + self.r.pick(&[0, self.array()]);
        self.put64(ARRAY, n)
    }

    fn array_below(&mut self) -> Option<()> {
        let n = (1 << 55) - self.r.between(1, 3);
        self.put64(ARRAY, n)
    }

    fn count_past(&mut self) -> Option<()> {
        let least = (self.room() / self.entry_length() + 1) as u32;
        self.pick32(COUNT, &[least, least, least + 1, 1 << 31, u32::MAX])
    }

    fn length_past(&mut self) -> Option<()> {
        let (count, room) = (self.count(), self.room());
        let past: Vec<u32> = (7..32).map(|k| 1 << k).filter(|&n| count * u64::from(n) > room).collect();
        let n = *past.get(self.r.pick(&[0, 0, past.len().saturating_sub(1)]))?;
        self.put32(ENTRY_LENGTH, n)
    }

    fn untested(&mut self) -> Option<()> {
        let length = get32(self.image, self.at + LENGTH) as usize;
        let rest = SHORTEST as usize..length;
        let field = match self.r.place(4) {
            3 if !rest.is_empty() => rest,
            i => UNTESTED[i % 3].clone(),
        };
        self.flip(field.start, field.len())
    }

    fn array_sum(&mut self) -> Option<()> {
        self.flip(ARRAY_SUM, 4)?;
        sum_header(self.image, self.at);
        Some(())
    }

    fn array_bit(&mut self) -> Option<()> {
        let bytes = self.count() * self.entry_length();
        if bytes == 0 {
            return None;
        }
        let at = self.array() * SECTOR as u64 + self.r.below(bytes);
        self.image[at as usize] ^= 1 << self.r.below(8);
        Some(())
    }

    /// Under the sum of the entries as they were.
    fn another_count(&mut self) -> Option<()> {
        let n = self.count() as u32;
        self.pick32(COUNT, &[n + 1, n.wrapping_sub(1), n ^ 2])?;
        sum_header(self.image, self.at);
        Some(())
    }

    fn another_length(&mut self) -> Option<()> {
        if self.count() == 0 {
            return None;
        }
        let n = self.entry_length() as u32;
        let other = if n == 128 || self.r.chance(1, 2) { 2 * n } else { n / 2 };
        self.put32(ENTRY_LENGTH, other)?;
        sum_header(self.image, self.at);
        Some(())
    }

    fn zeros(&mut self) -> Option<()> {
        self.image[self.at..self.at + SECTOR].fill(0);
        Some(())
    }

    fn elsewhere(&mut self) -> Option<()> {
        let to = self.sectors - 2;
        self.image.copy_within(self.at..self.at + SECTOR, to as usize * SECTOR);
        self.moved(to)
    }

    fn behind(&mut self) -> Option<()> {
        let start = self.sectors as usize * SECTOR;
        let tail = self.image.len() - start;
        if !self.free_tail || tail < SHORTEST as usize {
            return None;
        }
        self.image.copy_within(self.at..self.at + tail, start);
        put32(self.image, start + LENGTH, SHORTEST);
        self.moved(self.sectors)
    }

    /// The header's copy in another sector is right there, and the header gone.
    fn moved(&mut self, to: u64) -> Option<()> {
        let at = to as usize * SECTOR;
        put64(self.image, at + OWN, to);
        sum_header(self.image, at);
        self.zeros()
    }
}
