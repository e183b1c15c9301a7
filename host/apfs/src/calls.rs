//! The calls on a volume of an image, each of which opens the container and the volume anew.

/// A volume, at the latest checkpoint or at that of a transaction number.
#[derive(Clone, Copy, Debug, PartialEq, Eq)]
pub struct Which {
    pub checkpoint: Option<u64>,
    pub volume: u64,
}

impl Which {
    pub fn latest(volume: u64) -> Which {
        Which { checkpoint: None, volume }
    }

    pub fn at(xid: u64, volume: u64) -> Which {
        Which { checkpoint: Some(xid), volume }
    }
}

/// The exports of a call that takes numbers, at the latest checkpoint and at another, behind one safe function. A slice
/// passes as its pointer and its length; each call lends live slices for its time, and the port writes to `out` alone.
macro_rules! by_numbers {
    ($($(#[$doc:meta])* $name:ident: $latest:ident, $at:ident($($n:ident),*);)*) => {
        extern "C" {
            $(
                fn $latest(image: *const u8, image_len: usize, volume: u64, $($n: u64,)* out: *mut u8, out_len: usize)
                    -> i64;
                fn $at(
                    image: *const u8, image_len: usize, xid: u64, volume: u64, $($n: u64,)* out: *mut u8, out_len: usize
                ) -> i64;
            )*
        }
        $(
            $(#[$doc])*
            pub fn $name(image: &[u8], which: Which, $($n: u64,)* out: &mut [u8]) -> i64 {
                let (b, b_len, v, o, o_len) = (image.as_ptr(), image.len(), which.volume, out.as_mut_ptr(), out.len());
                match which.checkpoint {
                    None => unsafe { $latest(b, b_len, v, $($n,)* o, o_len) },
                    Some(xid) => unsafe { $at(b, b_len, xid, v, $($n,)* o, o_len) },
                }
            }
        )*
    };
}

by_numbers! {
    /// The file's bytes from `offset` on, as many as there are and `out` holds.
    read: apfs_read, apfs_read_at(id, offset);
    /// The line of the directory entry at `place`; nothing past the last.
    entry: apfs_entry, apfs_entry_at(id, place);
    /// The lines of the directory entries from `place` on, as many as fit; nothing past the last.
    entries: apfs_entries, apfs_entries_at(id, place);
    /// The line of the attribute at `place`, with its contents; nothing past the last.
    xattr: apfs_xattr, apfs_xattr_at(id, place);
    /// The bytes of the attribute at `place`; nothing past the last.
    xattr_bytes: apfs_xattr_bytes, apfs_xattr_bytes_at(id, place);
    /// A symbolic link's text.
    link: apfs_link, apfs_link_at(id);
    /// The line of the file's extent at `place`; nothing past the last.
    extent: apfs_extent, apfs_extent_at(id, place);
    /// The line `(replaced N)`: how many ill-formed parts of a name its lossy reading replaces; nothing where there is no
    /// such name. Kinds: 0 the volume's label, 1 the inode's name, 2 the directory entry and 3 the attribute at `place`,
    /// 4 a symbolic link's text.
    replaced: apfs_replaced, apfs_replaced_at(kind, id, place);
    /// The listing of the whole volume; where refused, `out` is left all zeros.
    list: apfs_list, apfs_list_at();
    /// The line `(measure LENGTH DEPTH)`: how many bytes that listing has, and its greatest depth, without its text.
    measure: apfs_measure, apfs_measure_at();
}

extern "C" {
    fn apfs_lookup(
        image: *const u8,
        image_len: usize,
        volume: u64,
        path: *const u8,
        path_len: usize,
        out: *mut u8,
        out_len: usize,
    ) -> i64;
    fn apfs_lookup_at(
        image: *const u8,
        image_len: usize,
        xid: u64,
        volume: u64,
        path: *const u8,
        path_len: usize,
        out: *mut u8,
        out_len: usize,
    ) -> i64;
}

/// The node's line of the inode at `path`.
pub fn lookup(image: &[u8], which: Which, path: &[u8], out: &mut [u8]) -> i64 {
    let (b, b_len, v, o, o_len) = (image.as_ptr(), image.len(), which.volume, out.as_mut_ptr(), out.len());
    let (p, p_len) = (path.as_ptr(), path.len());
    match which.checkpoint {
        None => unsafe { apfs_lookup(b, b_len, v, p, p_len, o, o_len) },
        Some(xid) => unsafe { apfs_lookup_at(b, b_len, xid, v, p, p_len, o, o_len) },
    }
}
