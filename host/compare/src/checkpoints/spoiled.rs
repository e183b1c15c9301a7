//! What the Rust says of a container's checkpoints: it is given the image with some of its candidates spoiled, and takes
//! the latest of the others.

use std::sync::Arc;

use oracle::error::Error;
use oracle::probe;
use sticks::block::{get32, get64, is_sealed, NX_SUPERBLOCK};

use crate::image::Image;
use crate::opening::answer::{caught, container, Answer};
use crate::opening::outside::ring;

/// The Rust's words where no candidate is accepted, which its class does not tell from other damage.
const NONE: &str = "no intact checkpoint in the checkpoint descriptor area";

const CORRUPT: u64 = 2;
const NO_CHECKPOINT: u64 = 13;

/// A block of the ring that is sound as a container's superblock; its maps may not be.
#[derive(Clone, Copy, Debug, PartialEq, Eq)]
pub struct Candidate {
    /// Where it stands in the part.
    pub at: usize,
    pub xid: u64,
}

/// In ring order.
pub fn candidates(part: &[u8]) -> Vec<Candidate> {
    area(part).unwrap_or_default()
}

fn area(part: &[u8]) -> Option<Vec<Candidate>> {
    let (size, blocks, base) = ring(part)?;
    let start = usize::try_from(base.checked_mul(size)?).ok()?;
    let area = part.get(start..start.checked_add((size * blocks) as usize)?)?;
    let places = (start..).step_by(size as usize).zip(area.chunks(size as usize));
    let sound = |b: &[u8]| get32(b, 24) & 0xffff == NX_SUPERBLOCK && b[32..36] == *b"NXSB" && is_sealed(b);
    Some(places.filter(|(_, b)| sound(b)).map(|(at, b)| Candidate { at, xid: get64(b, 16) }).collect())
}

/// The part in which only the candidates to keep are left, the checksums of the others having `bit` turned over.
pub fn keeping(part: &[u8], keep: &dyn Fn(&Candidate) -> bool, bit: u8) -> Arc<Vec<u8>> {
    let mut left = part.to_vec();
    candidates(part).iter().filter(|c| !keep(c)).for_each(|c| left[c.at] ^= bit);
    Arc::new(left)
}

/// What becomes of opening.
#[derive(Clone, Debug, PartialEq, Eq)]
pub enum Found {
    /// A checkpoint was taken, whatever its superblock and object map say.
    Taken,
    /// Every test before the candidates was passed, and none of them was accepted.
    None,
    /// Refused, for a fault before the candidates or behind them.
    Refused(u64),
    /// An overflow, or a panic.
    Stopped(Answer),
}

pub fn found(part: &Arc<Vec<u8>>) -> Found {
    match caught(|| container(part)) {
        Ok(Ok(_)) => Found::Taken,
        Ok(Err(Error::Corrupt(words))) if words == NONE => Found::None,
        Ok(Err(e)) => Found::Refused(probe::class(&e)),
        Err(a) => Found::Stopped(a),
    }
}

/// The image of which the Rust says what is asked at a number: a part that has candidates of that number alone.
pub fn image_at(image: &Image, xid: u64, bit: u8) -> Image {
    let left = |part: &Arc<Vec<u8>>| match keeping(part, &|c| c.xid == xid, bit) {
        part if found(&part) == Found::None => Err(NO_CHECKPOINT),
        part => Ok(part),
    };
    Image { whole: Arc::clone(&image.whole), part: image.part.as_ref().map_err(|n| *n).and_then(left) }
}

/// The numbers that a list must have, greatest first; or the refusal's number; or nothing, where the Rust stops.
pub fn numbers(part: &[u8]) -> Option<Result<Vec<u64>, u64>> {
    match found(&keeping(part, &|_| false, 1)) {
        Found::None => {}
        Found::Refused(n) => return Some(Err(n)),
        Found::Taken | Found::Stopped(_) => return None,
    }
    let mut numbers = Vec::new();
    for one in candidates(part) {
        match found(&keeping(part, &|c| c == &one, 1)) {
            Found::None => {}
            // What is refused then is behind the candidates.
            Found::Taken | Found::Refused(_) => numbers.push(one.xid),
            Found::Stopped(_) => return None,
        }
    }
    numbers.sort();
    numbers.reverse();
    Some(if numbers.is_empty() { Err(CORRUPT) } else { Ok(numbers) })
}
