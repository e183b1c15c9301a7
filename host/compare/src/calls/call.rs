//! A call on a volume.

use std::fmt;

use crate::calls::line;

#[derive(Clone, Debug, PartialEq, Eq)]
pub enum Call {
    Lookup {
        path: Vec<u8>,
    },
    /// Into a buffer of `length` bytes.
    Read {
        id: u64,
        offset: u64,
        length: usize,
    },
    Entry {
        id: u64,
        place: u64,
    },
    /// From `place` on, into a buffer of `length` bytes.
    Entries {
        id: u64,
        place: u64,
        length: usize,
    },
    Xattr {
        id: u64,
        place: u64,
    },
    XattrBytes {
        id: u64,
        place: u64,
    },
    Link {
        id: u64,
    },
    Extent {
        id: u64,
        place: u64,
    },
    /// Of the names that [`crate::calls::replaced`] lists.
    Replaced {
        kind: u64,
        id: u64,
        place: u64,
    },
    /// The mark of the record after `place` others.
    Mark {
        id: u64,
        kind: u8,
        place: u64,
    },
    /// The record that a mark leads to, whatever the volume.
    Marked {
        mark: Vec<u8>,
    },
}

pub const NAMES: [&str; 9] =
    ["lookup", "read", "entry", "entries", "xattr", "xattr_bytes", "link", "extent", "replaced"];
/// Those of bookmarks, which have a run of their own.
pub const MARKS: [&str; 2] = ["mark", "marked"];

impl Call {
    /// One of [`NAMES`], or of [`MARKS`].
    pub fn name(&self) -> &'static str {
        match self {
            Call::Lookup { .. } => "lookup",
            Call::Read { .. } => "read",
            Call::Entry { .. } => "entry",
            Call::Entries { .. } => "entries",
            Call::Xattr { .. } => "xattr",
            Call::XattrBytes { .. } => "xattr_bytes",
            Call::Link { .. } => "link",
            Call::Extent { .. } => "extent",
            Call::Replaced { .. } => "replaced",
            Call::Mark { .. } => "mark",
            Call::Marked { .. } => "marked",
        }
    }

    /// The buffer's length, where the answer goes by it.
    pub fn room(&self) -> Option<usize> {
        match self {
            Call::Read { length, .. } | Call::Entries { length, .. } => Some(*length),
            _ => None,
        }
    }
}

impl fmt::Display for Call {
    fn fmt(&self, f: &mut fmt::Formatter) -> fmt::Result {
        match self {
            Call::Lookup { path } => write!(f, "lookup of \"{}\"", path.escape_ascii()),
            Call::Read { id, offset, length } => write!(f, "read of {id} at {offset}, {length} bytes"),
            Call::Entries { id, place, length } => write!(f, "entries of {id} from {place} on, {length} bytes"),
            Call::Link { id } => write!(f, "link of {id}"),
            Call::Replaced { kind, id, place } => write!(f, "replaced of kind {kind}, {place} of {id}"),
            Call::Mark { id, kind, place } => write!(f, "mark of record {place} of kind {kind} of {id}"),
            Call::Marked { mark } => write!(f, "record marked by {}", line::hex(mark)),
            Call::Entry { id, place }
            | Call::Xattr { id, place }
            | Call::XattrBytes { id, place }
            | Call::Extent { id, place } => write!(f, "{} {place} of {id}", self.name()),
        }
    }
}
