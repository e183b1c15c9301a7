//! Whether one bad word may be all that is wrong with a block.

use std::ffi::OsStr;
use std::io::Write;

use crate::tool::answer::bytes;
use crate::tool::failure::Failure;
use crate::tool::image;
use crate::tool::stick::container;

/// A place and its word.
const ENTRY: usize = 12;
/// A word of the object may be listed twice.
const TIMES: usize = 2 * ENTRY / 4;

/// The places and the words that would stand there. The container need not open, nor block 0 be sound: the block's size
/// is given.
pub fn run(file: &OsStr, block: u64, size: u64, out: &mut dyn Write) -> Result<(), Failure> {
    let (name, image) = (image::name(file), image::read(file)?);
    let object = at(container(&image), block, size).ok_or_else(|| {
        Failure::Other(format!("{name}: block {block}: there is no such block of {size} bytes; give a lower number"))
    })?;
    let call = |out: &mut [u8]| match apfs::wrong_words(object, out) {
        n if n > 0 => n * ENTRY as i64,
        n => n,
    };
    let list = bytes(object.len() * TIMES, &call).map_err(|n| Failure::refused(&name, n))?;
    if list.is_empty() {
        return Ok(writeln!(out, "none: the block's checksum is right, or no one word makes it so")?);
    }
    for entry in list.as_chunks::<ENTRY>().0 {
        let (place, word) = entry.split_at(8);
        let number = |b: &[u8]| b.iter().rev().fold(0u64, |n, &x| n << 8 | u64::from(x));
        writeln!(out, "{} {:#010x}", number(place), number(word))?;
    }
    Ok(())
}

fn at(container: &[u8], block: u64, size: u64) -> Option<&[u8]> {
    let start = usize::try_from(block.checked_mul(size)?).ok()?;
    container.get(start..start.checked_add(usize::try_from(size).ok()?)?)
}
