//! A call that a desk makes, by the numbers that it is named by.

use std::fmt;

use crate::calls::call::Call;

pub const OPEN: u64 = 0;
pub const LOOKUP: u64 = 1;
pub const READ: u64 = 2;
pub const LIST: u64 = 3;
pub const ENTRY: u64 = 4;
pub const XATTR: u64 = 5;
pub const LINK: u64 = 6;
pub const EXTENT: u64 = 7;
pub const XATTR_BYTES: u64 = 8;
pub const ENTRIES: u64 = 9;
pub const MEASURE: u64 = 10;
pub const MARK: u64 = 11;
pub const MARKED: u64 = 12;
pub const REPLACED: u64 = 13;
pub const CHECKPOINTS: u64 = 14;
pub const PART: u64 = 15;
pub const WRONG_WORDS: u64 = 16;

pub const NAMES: [&str; 17] = [
    "open",
    "lookup",
    "read",
    "list",
    "entry",
    "xattr",
    "link",
    "extent",
    "xattr_bytes",
    "entries",
    "measure",
    "mark",
    "marked",
    "replaced",
    "checkpoints",
    "part",
    "wrong_words",
];
pub const NO_CALL: &str = "no call";

#[derive(Clone, Debug, Default, PartialEq, Eq)]
pub struct Request {
    pub what: u64,
    /// 0 for the latest checkpoint, anything else for that of the number `xid`.
    pub numbered: u64,
    pub xid: u64,
    pub volume: u64,
    pub a: u64,
    pub b: u64,
    pub c: u64,
    /// Or a bookmark.
    pub path: Vec<u8>,
}

impl Request {
    pub fn of(what: u64) -> Request {
        Request { what, ..Request::default() }
    }

    pub fn name(&self) -> &'static str {
        usize::try_from(self.what).ok().and_then(|i| NAMES.get(i)).copied().unwrap_or(NO_CALL)
    }

    pub fn checkpoint(&self) -> Option<u64> {
        (self.numbered != 0).then_some(self.xid)
    }

    /// The same of another volume, at a checkpoint or at the latest.
    pub fn on(self, checkpoint: Option<u64>, volume: u64) -> Request {
        let (numbered, xid) = checkpoint.map_or((0, 0), |xid| (1, xid));
        Request { numbered, xid, volume, ..self }
    }

    /// The call on a volume that it names, into so many bytes; none where it names none.
    pub fn call(&self, room: usize) -> Option<Call> {
        let (id, place, path) = (self.a, self.b, || self.path.clone());
        Some(match self.what {
            LOOKUP => Call::Lookup { path: path() },
            READ => Call::Read { id, offset: place, length: room },
            ENTRY => Call::Entry { id, place },
            XATTR => Call::Xattr { id, place },
            LINK => Call::Link { id },
            EXTENT => Call::Extent { id, place },
            XATTR_BYTES => Call::XattrBytes { id, place },
            ENTRIES => Call::Entries { id, place, length: room },
            MARK => Call::Mark { id, kind: self.c as u8, place },
            MARKED => Call::Marked { mark: path() },
            REPLACED => Call::Replaced { kind: self.c, id, place },
            _ => return None,
        })
    }
}

impl From<&Call> for Request {
    fn from(call: &Call) -> Request {
        let on = |what: u64, a: u64, b: u64, c: u64| Request { what, a, b, c, ..Request::default() };
        match call {
            Call::Lookup { path } => Request { path: path.clone(), ..Request::of(LOOKUP) },
            Call::Read { id, offset, .. } => on(READ, *id, *offset, 0),
            Call::Entry { id, place } => on(ENTRY, *id, *place, 0),
            Call::Xattr { id, place } => on(XATTR, *id, *place, 0),
            Call::Link { id } => on(LINK, *id, 0, 0),
            Call::Extent { id, place } => on(EXTENT, *id, *place, 0),
            Call::XattrBytes { id, place } => on(XATTR_BYTES, *id, *place, 0),
            Call::Entries { id, place, .. } => on(ENTRIES, *id, *place, 0),
            Call::Mark { id, kind, place } => on(MARK, *id, *place, (*kind).into()),
            Call::Marked { mark } => Request { path: mark.clone(), ..Request::of(MARKED) },
            Call::Replaced { kind, id, place } => on(REPLACED, *id, *place, *kind),
        }
    }
}

impl fmt::Display for Request {
    fn fmt(&self, f: &mut fmt::Formatter) -> fmt::Result {
        let Request { what, numbered, xid, volume, a, b, c, path } = self;
        write!(f, "{what} ({}) of volume {volume}, {a} {b} {c}", self.name())?;
        write!(f, " \"{}\", checkpoint {numbered} {xid}", path.escape_ascii())
    }
}
