//! The Rust's own count: `node_reads` counts a block when it is read, and not again while it is cached. After one call on
//! a container that was just opened it is the number of blocks that the call went through, each once.

use std::collections::BTreeSet;
use std::sync::Arc;

use oracle::fs::Volume;
use oracle::nx::Container;
use oracle::probe;

use crate::calls::call::Call;
use crate::calls::directory::{Directories, Rule};
use crate::calls::expected::{at, Stop};
use crate::calls::{names, replaced, stream};
use crate::desks::request::{self as what, Request};
use crate::list::trace::{End, LONGEST};
use crate::list::walk;
use crate::opening::answer::{caught, container};
use crate::opening::outside::outside;

/// It forgets what it has read where it has read so many.
const CACHED: u64 = 8192;

/// How many blocks there are in a path.
pub fn distinct(path: &[u64]) -> u64 {
    path.iter().collect::<BTreeSet<_>>().len() as u64
}

/// None where the Rust does not open the container, has no such call, or goes on where the port does not. For a
/// measurement it is a whole listing, rebuilt from its calls.
pub fn reads(part: &Arc<Vec<u8>>, r: &Request) -> Option<u64> {
    if outside(part).is_some() || r.what > what::REPLACED {
        return None;
    }
    let c = caught(|| container(part)).ok()?.ok()?;
    // However it ends, what was read by then is counted.
    if let Ok(false) = caught(|| asked(part, &c, r)) {
        return None;
    }
    Some(c.node_reads()).filter(|n| *n < CACHED)
}

/// Makes the call; false where the Rust has none.
fn asked(part: &Arc<Vec<u8>>, c: &Container, r: &Request) -> bool {
    match r.what {
        what::OPEN | what::MARKED => true,
        what::LIST => false,
        what::MEASURE => {
            let trace = walk::with_room(part, c, r.volume, LONGEST, Rule::Length);
            matches!(trace.end, End::Whole | End::Refused(_))
        }
        _ => match c.volume(r.volume as usize) {
            Ok(v) => on_volume(part, c, &v, r),
            Err(_) => true,
        },
    }
}

fn on_volume(part: &Arc<Vec<u8>>, c: &Container, v: &Volume, r: &Request) -> bool {
    let inode = |id: u64| v.inode(id);
    let Some(call) = r.call(0) else { return false };
    let _ = match call {
        Call::Lookup { path } => return lookup(part, v, r.volume, &path),
        Call::Read { id, offset, .. } => inode(id).and_then(|i| v.read_at(&i, offset, &mut [0])).map(|_| ()),
        Call::Extent { id, .. } => inode(id).and_then(|i| v.file_extents(&i)).map(|_| ()),
        Call::Entry { id, .. } | Call::Entries { id, .. } => v.read_dir(id).map(|_| ()),
        Call::Xattr { id, place } | Call::XattrBytes { id, place } => v.xattrs(id).map(|list| {
            at(&list, place).map(|x| stream::data(part, c, v, x));
        }),
        Call::Link { id } => inode(id).and_then(|_| v.xattr(id, "com.apple.fs.symlink")).map(|x| {
            x.map(|x| stream::data(part, c, v, &x));
        }),
        Call::Mark { id, kind, place } => {
            let mut left = place;
            probe::records(v, id, kind, &mut |_, _| {
                let goes_on = left > 0;
                left = left.saturating_sub(1);
                Ok(goes_on)
            })
        }
        Call::Replaced { kind: replaced::LABEL, .. } => Ok(()),
        Call::Replaced { .. } | Call::Marked { .. } => return false,
    };
    true
}

/// The Rust goes on where a name is not covered; whether one is, another container tells.
fn lookup(part: &Arc<Vec<u8>>, v: &Volume, volume: u64, path: &[u8]) -> bool {
    let Ok(path) = std::str::from_utf8(path) else { return true };
    let covered = || {
        let c = container(part).ok()?;
        let v = c.volume(volume as usize).ok()?;
        let followed = names::followed(&Directories::of(&v, Rule::Length), path);
        (!matches!(followed, Err(Stop::Added(_)))).then_some(())
    };
    if matches!(caught(covered), Ok(None)) {
        return false;
    }
    let _ = v.lookup_path(path);
    true
}
