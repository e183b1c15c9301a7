//! The transaction numbers of the checkpoints, of which each opens the container as it was then.

use std::ffi::OsStr;
use std::io::Write;

use crate::tool::failure::Failure;
use crate::tool::stick::Stick;

pub fn run(file: &OsStr, out: &mut dyn Write) -> Result<(), Failure> {
    for xid in Stick::of(file)?.checkpoints()? {
        writeln!(out, "{xid}")?;
    }
    Ok(())
}
