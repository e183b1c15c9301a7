//! Up to eight desks that read through one dock. Each call names its desk, 0 to 7, whose count goes up by the nodes that
//! the call went through, also where it is refused; at 2^64 - 1 a count stays. A desk above 7 changes no count. Answers
//! and buffers are those of the calls by themselves.

use crate::calls::Which;

/// Of one dock.
pub const DESKS: usize = 8;

/// The dock's record: how many nodes each desk's calls went through.
#[repr(C)]
#[derive(Clone, Copy, Debug, Default, PartialEq, Eq)]
pub struct DeskCounts {
    pub counts: [u64; DESKS],
}

// A slice passes as its pointer and its length.
extern "C" {
    fn apfs_desk(
        counts: *mut DeskCounts,
        desk: u64,
        what: u64,
        image: *const u8,
        image_len: usize,
        numbered: u64,
        xid: u64,
        volume: u64,
        a: u64,
        b: u64,
        c: u64,
        path: *const u8,
        path_len: usize,
        out: *mut u8,
        out_len: usize,
    ) -> i64;
}

/// A call by its number: one that there is not is refused with 4. Numbers that a call has no use for are not looked at.
#[derive(Clone, Copy, Debug, Default, PartialEq, Eq)]
pub struct Asked<'a> {
    pub what: u64,
    /// 0 for the latest checkpoint, anything else for that of the number `xid`.
    pub numbered: u64,
    pub xid: u64,
    pub volume: u64,
    pub a: u64,
    pub b: u64,
    pub c: u64,
    /// Or a bookmark.
    pub path: &'a [u8],
}

impl Asked<'_> {
    fn at(checkpoint: Option<u64>) -> Asked<'static> {
        Asked { numbered: checkpoint.is_some().into(), xid: checkpoint.unwrap_or(0), ..Asked::default() }
    }

    fn of(which: Which) -> Asked<'static> {
        Asked { volume: which.volume, ..Asked::at(which.checkpoint) }
    }
}

/// Owns the counts, all 0 at first.
#[derive(Clone, Debug, Default)]
pub struct Dock {
    record: DeskCounts,
}

impl From<DeskCounts> for Dock {
    fn from(record: DeskCounts) -> Dock {
        Dock { record }
    }
}

/// Calls that take numbers, by the names and the parameters that they have by themselves.
macro_rules! by_numbers {
    ($($name:ident: $what:literal($($number:ident as $field:ident),*);)*) => {
        impl Dock {
            $(
                #[allow(clippy::too_many_arguments)]
                pub fn $name(&mut self, desk: u64, image: &[u8], which: Which, $($number: u64,)* out: &mut [u8]) -> i64 {
                    self.call(desk, image, Asked { what: $what, $($field: $number,)* ..Asked::of(which) }, out)
                }
            )*
        }
    };
}

by_numbers! {
    read: 2(id as a, offset as b);
    list: 3();
    entry: 4(id as a, place as b);
    xattr: 5(id as a, place as b);
    link: 6(id as a);
    extent: 7(id as a, place as b);
    xattr_bytes: 8(id as a, place as b);
    entries: 9(id as a, place as b);
    measure: 10();
    replaced: 13(kind as c, id as a, place as b);
}

impl Dock {
    pub fn new() -> Dock {
        Dock::default()
    }

    pub fn counts(&self) -> [u64; DESKS] {
        self.record.counts
    }

    pub fn call(&mut self, desk: u64, image: &[u8], asked: Asked, out: &mut [u8]) -> i64 {
        let Asked { what, numbered, xid, volume, a, b, c, path } = asked;
        let ((i, i_len), (p, p_len)) = ((image.as_ptr(), image.len()), (path.as_ptr(), path.len()));
        let (o, o_len, record) = (out.as_mut_ptr(), out.len(), &mut self.record);
        // Live slices and a live record for the call's time; the port writes to the record and to `out` alone.
        unsafe { apfs_desk(record, desk, what, i, i_len, numbered, xid, volume, a, b, c, p, p_len, o, o_len) }
    }

    pub fn open(&mut self, desk: u64, image: &[u8], checkpoint: Option<u64>, out: &mut [u8]) -> i64 {
        self.call(desk, image, Asked { what: 0, ..Asked::at(checkpoint) }, out)
    }

    pub fn lookup(&mut self, desk: u64, image: &[u8], which: Which, path: &[u8], out: &mut [u8]) -> i64 {
        self.call(desk, image, Asked { what: 1, path, ..Asked::of(which) }, out)
    }

    #[allow(clippy::too_many_arguments)]
    pub fn mark(
        &mut self,
        desk: u64,
        image: &[u8],
        which: Which,
        id: u64,
        kind: u8,
        place: u64,
        out: &mut [u8],
    ) -> i64 {
        self.call(desk, image, Asked { what: 11, a: id, b: place, c: kind.into(), ..Asked::of(which) }, out)
    }

    pub fn marked(&mut self, desk: u64, image: &[u8], checkpoint: Option<u64>, mark: &[u8], out: &mut [u8]) -> i64 {
        self.call(desk, image, Asked { what: 12, path: mark, ..Asked::at(checkpoint) }, out)
    }

    /// Goes through no node, as `part` and `wrong_words` do.
    pub fn checkpoints(&mut self, desk: u64, image: &[u8], out: &mut [u8]) -> i64 {
        self.call(desk, image, Asked { what: 14, ..Asked::default() }, out)
    }

    pub fn part(&mut self, desk: u64, image: &[u8], out: &mut [u8]) -> i64 {
        self.call(desk, image, Asked { what: 15, ..Asked::default() }, out)
    }

    pub fn wrong_words(&mut self, desk: u64, object: &[u8], out: &mut [u8]) -> i64 {
        self.call(desk, object, Asked { what: 16, ..Asked::default() }, out)
    }
}
