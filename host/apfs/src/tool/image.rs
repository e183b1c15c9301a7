//! An image file, read whole.

use std::ffi::OsStr;
use std::fs::File;
use std::io::{Error, ErrorKind, Read};

use apfs::refusal::LARGEST_IMAGE;

use crate::tool::failure::Failure;
use crate::tool::shown::shown;

const TOO_LARGE: u64 = 7;
const ABSENT: &str = "there is no such file; give the image of a stick, or write one with `apfs sample`";

/// A file's name for messages.
pub fn name(file: &OsStr) -> String {
    shown(&file.to_string_lossy())
}

pub fn read(file: &OsStr) -> Result<Vec<u8>, Failure> {
    let name = name(file);
    let failed = |e: Error| match e.kind() {
        ErrorKind::NotFound => Failure::Other(format!("{name}: {ABSENT}")),
        _ => Failure::File(name.clone(), e),
    };
    let opened = File::open(file).map_err(failed)?;
    let length = opened.metadata().map_err(failed)?.len();
    let mut bytes = Vec::new();
    if length <= LARGEST_IMAGE {
        // A device has no length of its own; it is read until its end.
        bytes.try_reserve(length as usize).map_err(|e| Failure::Other(format!("{name}: {e}")))?;
        opened.take(LARGEST_IMAGE + 1).read_to_end(&mut bytes).map_err(failed)?;
    }
    if length.max(bytes.len() as u64) > LARGEST_IMAGE {
        return Err(Failure::refused(name, TOO_LARGE));
    }
    Ok(bytes)
}
