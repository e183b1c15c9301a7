//! A header's fields by their places (UEFI 2.10, 5.3.2), and the sums.

use crate::block::{get32, get64, put, put32, put64};
use crate::random::Random;
use crate::sums::crc32;

pub const SECTOR: usize = 512;

pub const LENGTH: usize = 12;
pub const SUM: usize = 16;
pub const OWN: usize = 24;
pub const ARRAY: usize = 72;
pub const COUNT: usize = 80;
pub const ENTRY_LENGTH: usize = 84;
pub const ARRAY_SUM: usize = 88;

/// Fields that are under the sum and that nobody tests: revision, reserved, the other header, usable sectors, disk.
pub const UNTESTED: [std::ops::Range<usize>; 3] = [8..12, 20..24, 32..72];

/// The shortest that a header may be.
pub const SHORTEST: u32 = 92;

/// What a reader goes by.
#[derive(Clone, Copy, Debug)]
pub struct Header {
    pub length: u32,
    /// The header's own sector.
    pub sector: u64,
    /// The array's.
    pub array: u64,
    pub count: u32,
    pub entry_length: u32,
    pub array_sum: u32,
}

impl Header {
    /// In its sector, with the sum that it asks for; all else in the sector is drawn.
    pub fn write(&self, image: &mut [u8], r: &mut Random) {
        let at = self.sector as usize * SECTOR;
        let b = &mut image[at..at + SECTOR];
        put(b, 0, &r.bytes(SECTOR));
        put(b, 0, b"EFI PART");
        put32(b, LENGTH, self.length);
        put64(b, OWN, self.sector);
        put64(b, ARRAY, self.array);
        put32(b, COUNT, self.count);
        put32(b, ENTRY_LENGTH, self.entry_length);
        put32(b, ARRAY_SUM, self.array_sum);
        sum_header(image, at);
    }
}

/// Makes both sums of the header at byte `at` right.
pub fn mend(image: &mut [u8], at: usize) {
    sum_array(image, at);
    sum_header(image, at);
}

/// Writes the sum of the header at byte `at` over as many bytes as it says, where the image has them.
pub fn sum_header(image: &mut [u8], at: usize) {
    put32(image, at + SUM, 0);
    let end = at.saturating_add(get32(image, at + LENGTH) as usize).min(image.len());
    let sum = crc32(&image[at..end]);
    put32(image, at + SUM, sum);
}

/// Writes the array's sum, taken where a reader finds it whose products wrap; nothing where that is past the image.
fn sum_array(image: &mut [u8], at: usize) {
    let start = get64(image, at + ARRAY).wrapping_mul(SECTOR as u64);
    let bytes = u64::from(get32(image, at + COUNT)) * u64::from(get32(image, at + ENTRY_LENGTH));
    let end = start.wrapping_add(bytes);
    if start <= end && end <= image.len() as u64 {
        let sum = crc32(&image[start as usize..end as usize]);
        put32(image, at + ARRAY_SUM, sum);
    }
}
