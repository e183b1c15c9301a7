//! The part of an image that everything reads, written down from document 02 (request 01) and the UEFI
//! specification alone: it shares nothing with the drawer but the sum.

use crate::sums::crc32;

const LARGEST_IMAGE: usize = 1 << 34;
const FIRST_BYTES: usize = 4096;
const SECTOR: usize = 512;
const PRIMARY: usize = 1;

const TOO_SHORT: u8 = 1;
const TOO_LARGE: u8 = 7;
const NO_PARTITION_TABLE: u8 = 11;
const NO_PARTITION: u8 = 12;

/// 7C3457EF-0000-11AA-AA11-00306543ECAC as it is stored: the bytes of the first three groups are reversed.
const APFS: [u8; 16] = [0xef, 0x57, 0x34, 0x7c, 0x00, 0x00, 0xaa, 0x11, 0xaa, 0x11, 0x00, 0x30, 0x65, 0x43, 0xec, 0xac];

/// Little-endian. No sum or product of two fields passes the end of the type.
fn number(b: &[u8], at: usize, width: usize) -> u128 {
    b[at..at + width].iter().rev().fold(0, |n, &x| n << 8 | u128::from(x))
}

/// The part's offset and length, or the refusal's number.
pub fn expected_part(image: &[u8]) -> Result<(usize, usize), u8> {
    if image.len() > LARGEST_IMAGE {
        return Err(TOO_LARGE);
    }
    if image.len() < FIRST_BYTES {
        return Err(TOO_SHORT);
    }
    if image[32..36] == *b"NXSB" {
        return Ok((0, image.len()));
    }
    let backup = image.len() / SECTOR - 1;
    let table = intact(image, PRIMARY).or_else(|| intact(image, backup));
    let (array, entry_length) = table.ok_or(NO_PARTITION_TABLE)?;
    let mut entries = array.chunks(entry_length);
    let entry = entries.find(|e| e[..16] == APFS).ok_or(NO_PARTITION)?;
    let (first, last) = (number(entry, 32, 8), number(entry, 40, 8));
    let (start, end) = (first * SECTOR as u128, (last + 1) * SECTOR as u128);
    if last < first || end > image.len() as u128 {
        return Err(NO_PARTITION);
    }
    Ok((start as usize, (end - start) as usize))
}

/// The array and the length of its entries, where the header in that sector is intact.
fn intact(image: &[u8], sector: usize) -> Option<(&[u8], usize)> {
    let header = &image[sector * SECTOR..(sector + 1) * SECTOR];
    let (length, entry_length) = (number(header, 12, 4), number(header, 84, 4));
    let start = number(header, 72, 8) * SECTOR as u128;
    let end = start + number(header, 80, 4) * entry_length;
    let sound = header[..8] == *b"EFI PART"
        && number(header, 24, 8) == sector as u128
        && (92..=512).contains(&length)
        && number(header, 16, 4) == u128::from(header_sum(header, length as usize))
        && (0..25).any(|k| entry_length == 128 << k)
        && end <= image.len() as u128;
    if !sound {
        return None;
    }
    let array = &image[start as usize..end as usize];
    (number(header, 88, 4) == u128::from(crc32(array))).then_some((array, entry_length as usize))
}

/// Of the header's first bytes, its own sum taken as zeros.
fn header_sum(header: &[u8], length: usize) -> u32 {
    let mut first = header[..length].to_vec();
    first[16..20].fill(0);
    crc32(&first)
}
