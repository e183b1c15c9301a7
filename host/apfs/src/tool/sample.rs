//! A small stick to try the other commands on.

use std::ffi::OsStr;
use std::fs::OpenOptions;
use std::io::{ErrorKind, Write};

use sticks::{make, Plan};

use crate::tool::failure::Failure;
use crate::tool::image::name;

pub fn run(file: &OsStr, out: &mut dyn Write) -> Result<(), Failure> {
    let failed = |e: std::io::Error| match e.kind() {
        ErrorKind::AlreadyExists => {
            Failure::Other(format!("{}: there already, and left as it is; name a new file", name(file)))
        }
        _ => Failure::File(name(file), e),
    };
    let mut to = OpenOptions::new().write(true).create_new(true).open(file).map_err(failed)?;
    let image = make(Plan::sample()).image;
    if let Err(e) = to.write_all(&image) {
        // Half a stick helps nobody.
        let _ = std::fs::remove_file(file);
        return Err(failed(e));
    }
    Ok(writeln!(out, "{}: a stick of {} bytes", name(file), image.len())?)
}
