//! How a path is followed, as far as the comparison's domain asks.

use oracle::error::Error;
use oracle::fs::{DirEntry, Inode, NameRule};

use crate::calls::directory::Directories;
use crate::calls::expected::Stop;

/// A character above U+007F was met where names are compared by their keys.
const NOT_COVERED: u64 = 9;

/// Where a path leads, and through what: "root", "exact" names alone, or some found "by key".
pub fn followed(dirs: &Directories, path: &str) -> Result<(Inode, &'static str), Stop> {
    let mut kind = "root";
    let mut at = dirs.v.root()?;
    for part in path.split(['/', '\\']).filter(|p| !p.is_empty()) {
        let entries = dirs.read(at.id)?;
        let hit = chosen(dirs.v.name_rule(), &entries, part)?;
        kind = if hit.is_none_or(|e| e.name != part) || kind == "by key" { "by key" } else { "exact" };
        let hit = hit.ok_or_else(|| Error::NotFound(part.into()))?;
        at = dirs.v.inode(hit.file_id)?;
    }
    Ok((at, kind))
}

/// The first entry of exactly this name, else the first by its key.
pub fn chosen<'e>(rule: NameRule, entries: &'e [DirEntry], part: &str) -> Result<Option<&'e DirEntry>, Stop> {
    match entries.iter().find(|e| e.name == part) {
        Some(e) => Ok(Some(e)),
        None => by_key(rule, entries, part),
    }
}

/// The first entry whose key is the part's; on an insensitive volume no wide name may be met before it.
fn by_key<'e>(rule: NameRule, entries: &'e [DirEntry], part: &str) -> Result<Option<&'e DirEntry>, Stop> {
    let wide = |name: &str| (rule.case_insensitive || rule.normalization_insensitive) && !name.is_ascii();
    if wide(part) {
        return Err(Stop::Added(NOT_COVERED));
    }
    for e in entries {
        if wide(&e.name) {
            return Err(Stop::Added(NOT_COVERED));
        }
        if rule.key(&e.name) == rule.key(part) {
            return Ok(Some(e));
        }
    }
    Ok(None)
}
