//! A volume's listing.

use std::io::Write;

use crate::tool::ask::Asked;
use crate::tool::failure::Failure;

pub fn run(asked: &Asked, out: &mut dyn Write) -> Result<(), Failure> {
    Ok(out.write_all(&asked.list()?)?)
}
