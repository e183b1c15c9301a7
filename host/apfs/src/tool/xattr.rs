//! What attributes an inode has, and the bytes of one.

use std::io::Write;

use crate::tool::ask::{shown_path, Asked};
use crate::tool::attribute::Attribute;
use crate::tool::failure::Failure;
use crate::tool::name::Name;
use crate::tool::shown::shown;

/// Past the end of any list.
const NOWHERE: u64 = u64::MAX;

/// Each attribute, or the refusal of its bytes.
fn all(asked: &Asked, what: &str, id: u64) -> Result<Vec<Result<Attribute, u64>>, Failure> {
    // A fault in the list itself is told at every place.
    asked.attribute(id, NOWHERE)?.map_err(|n| asked.refused(&format!("attributes of {what}"), n))?;
    let (mut out, mut place) = (Vec::new(), 0);
    while let Some(a) = asked.attribute(id, place)?.transpose() {
        out.push(a);
        place += 1;
    }
    Ok(out)
}

/// Flags, form, size and name of each, then the first that could not be read.
pub fn run(asked: &Asked, path: &[u8], out: &mut dyn Write) -> Result<(), Failure> {
    let (node, what) = (asked.lookup(path)?, shown_path(path));
    let mut refused = Ok(());
    for (place, a) in (0..).zip(all(asked, &what, node.id)?) {
        match a {
            Ok(a) => {
                let form = if a.is_stream { "stream" } else { "embedded" };
                let mark = asked.mark(asked.volume, Name::Attribute(node.id, place), &a.name)?;
                writeln!(out, "{:#06x} {form:8} {:>12} {}{mark}", a.flags, a.size, shown(&a.name))?;
            }
            Err(n) if refused.is_ok() => refused = Err(asked.refused(&format!("attribute {place} of {what}"), n)),
            Err(_) => {}
        }
    }
    refused
}

/// The bytes of the first attribute of that name.
pub fn bytes(asked: &Asked, path: &[u8], name: &[u8], out: &mut dyn Write) -> Result<(), Failure> {
    let (node, what) = (asked.lookup(path)?, shown_path(path));
    let mut refused = None;
    for (place, a) in (0..).zip(all(asked, &what, node.id)?) {
        let told = |n: u64| asked.refused(&format!("attribute {place} of {what}"), n);
        match a {
            Ok(a) if a.name.as_bytes() == name => {
                return Ok(out.write_all(&asked.attribute_bytes(node.id, place).map_err(told)?)?);
            }
            Ok(_) => {}
            Err(n) => refused = refused.or(Some(told(n))),
        }
    }
    let name = shown(&String::from_utf8_lossy(name));
    let words = format!("no attribute {name}; `apfs xattr` without a name shows those that are there");
    Err(refused.unwrap_or_else(|| Failure::Other(format!("{}: {what}: {words}", asked.place))))
}
