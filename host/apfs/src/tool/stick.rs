//! A stick: the part of it that a container is in, the container opened, and its checkpoints.

use std::cell::RefCell;
use std::ffi::OsStr;

use apfs::desks::Dock;
use apfs::refusal;

use crate::tool::answer::{bytes, parsed, LONGEST};
use crate::tool::ask::DESK;
use crate::tool::container::Container;
use crate::tool::failure::Failure;
use crate::tool::image;
use crate::tool::part::Part;

const CORRUPT: u64 = 2;
const NOT_FOUND: u64 = 4;
/// Bytes of a transaction number in the list.
const NUMBER: usize = 8;
/// No block is smaller, and each number is of a block of its own.
const BLOCK: usize = 4096;

pub struct Stick {
    /// The image file's name, for messages.
    pub file: String,
    image: Vec<u8>,
    part: Part,
}

impl Stick {
    pub fn of(file: &OsStr) -> Result<Stick, Failure> {
        let (file, image) = (image::name(file), image::read(file)?);
        let line = bytes(LONGEST, &|out| apfs::part(&image, out)).map_err(|n| Failure::refused(&file, n))?;
        let part = parsed(&file, &line, Part::parse)?;
        if image.get(part.range()).is_none() {
            return Err(Failure::Other(format!("{file}: a part that is not in the image")));
        }
        Ok(Stick { file, image, part })
    }

    /// What the calls on a volume are given: a part that opens is its own part, so the table need not be read in each
    /// call.
    pub fn container(&self) -> &[u8] {
        &self.image[self.part.range()]
    }

    /// The container's partition, where it is not the whole image.
    pub fn partition(&self) -> Option<&Part> {
        (self.part.length < self.image.len()).then_some(&self.part)
    }

    /// The stick is given whole, as only then is a part without a container told from an image without a table.
    pub fn open(&self, checkpoint: Option<u64>, dock: &RefCell<Dock>) -> Result<Container, Failure> {
        let call = |out: &mut [u8]| dock.borrow_mut().open(DESK, &self.image, checkpoint, out);
        let line = bytes(LONGEST, &call).map_err(|n| self.refused(n, checkpoint))?;
        parsed(&self.place(), &line, Container::parse)
    }

    /// The transaction numbers of the checkpoints, the latest first, whether the container opens or not.
    pub fn checkpoints(&self) -> Result<Vec<u64>, Failure> {
        let call = |out: &mut [u8]| match apfs::checkpoints(&self.image, out) {
            n if n > 0 => n * NUMBER as i64,
            n => n,
        };
        let list = bytes(self.image.len() / BLOCK * NUMBER, &call).map_err(|n| self.refused(n, None))?;
        Ok(list.as_chunks::<NUMBER>().0.iter().map(|number| u64::from_le_bytes(*number)).collect())
    }

    /// The file, and where in it the container is to begin.
    fn place(&self) -> String {
        match self.part.offset {
            0 => self.file.clone(),
            offset => format!("{}: partition at byte {offset}", self.file),
        }
    }

    fn refused(&self, number: u64, checkpoint: Option<u64>) -> Failure {
        match number {
            NOT_FOUND => Failure::told(
                self.place(),
                number,
                "no APFS container begins here, though the partition is of that type",
                refusal::advice(CORRUPT),
            ),
            _ => Failure::refused_at(checkpoint, at(&self.place(), checkpoint), number),
        }
    }
}

/// The part of an image that a container is in; all of it where no part is told, as of a stick whose first block is lost.
pub fn container(image: &[u8]) -> &[u8] {
    let line = bytes(LONGEST, &|out| apfs::part(image, out));
    let part = line.ok().and_then(|line| parsed("part", &line, Part::parse).ok());
    part.and_then(|part| image.get(part.range())).unwrap_or(image)
}

/// A place for messages, with the checkpoint if one was asked for.
pub fn at(place: &str, checkpoint: Option<u64>) -> String {
    match checkpoint {
        None => place.into(),
        Some(xid) => format!("{place}: checkpoint {xid}"),
    }
}
