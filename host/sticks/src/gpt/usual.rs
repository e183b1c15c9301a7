//! A table as partition programs write it.

use crate::block::put;
use crate::gpt::entries::{put_apfs, Place};
use crate::gpt::header::{Header, SECTOR};
use crate::random::Random;
use crate::sums::crc32;

const COUNT: u32 = 128;
const ENTRY: u32 = 128;
/// Where such programs let the first partition of a small disk begin.
const FIRST: u64 = 40;

/// The container in the first of 128 entries; primary and backup say the same.
pub fn around(container: &[u8]) -> Vec<u8> {
    let mut r = Random::new(1);
    let mut array = vec![0; (COUNT * ENTRY) as usize];
    let place = Place { first: FIRST, last: FIRST + container.len().div_ceil(SECTOR).max(1) as u64 - 1 };
    put_apfs(&mut array, place);
    let backup_array = place.last + 1;
    let backup = backup_array + (array.len() / SECTOR) as u64;
    let mut image = vec![0; (backup + 1) as usize * SECTOR];
    put(&mut image, place.bytes().0, container);
    for (sector, at) in [(1, 2), (backup, backup_array)] {
        put(&mut image, at as usize * SECTOR, &array);
        let array_sum = crc32(&array);
        Header { length: 92, sector, array: at, count: COUNT, entry_length: ENTRY, array_sum }
            .write(&mut image, &mut r);
    }
    image
}
