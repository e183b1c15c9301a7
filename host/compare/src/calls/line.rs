//! Lines in document 01's notation, from what the oracle gives.

use oracle::fs::{DirEntry, Extent, FileKind, Inode, Xattr, XattrData};

/// `x` and lower-case hexadecimal.
pub fn hex(bytes: &[u8]) -> String {
    const DIGITS: &[u8; 16] = b"0123456789abcdef";
    let mut out = String::with_capacity(1 + 2 * bytes.len());
    out.push('x');
    for b in bytes {
        out.push(DIGITS[usize::from(b >> 4)].into());
        out.push(DIGITS[usize::from(b & 15)].into());
    }
    out
}

/// The stored 4 bits.
pub fn kind(k: FileKind) -> u16 {
    match k {
        FileKind::Fifo => 1,
        FileKind::CharDevice => 2,
        FileKind::Directory => 4,
        FileKind::BlockDevice => 6,
        FileKind::Regular => 8,
        FileKind::Symlink => 10,
        FileKind::Socket => 12,
        FileKind::Whiteout => 14,
        FileKind::Unknown(n) => n,
    }
}

pub fn node(i: &Inode) -> String {
    let name = i.name.as_ref().map_or("-".to_string(), |n| hex(n.as_bytes()));
    let stream = i.dstream.map_or("-".to_string(), |d| format!("{},{}", d.size, d.alloced_size));
    let ids = format!("{} {} {}", i.id, i.parent_id, i.private_id);
    let times = format!("{} {} {} {}", i.create_time, i.mod_time, i.change_time, i.access_time);
    let flags = format!("{} {} {}", i.internal_flags, i.nchildren_or_nlink, i.bsd_flags);
    format!("(node {ids} {times} {flags} {} {} {} {name} {stream}\n", i.owner, i.group, i.mode)
}

pub fn entry(e: &DirEntry) -> String {
    format!("(entry {} {} {} {}\n", e.file_id, e.date_added, kind(e.kind), hex(e.name.as_bytes()))
}

pub fn attribute(x: &Xattr, data: &[u8]) -> String {
    let form = match &x.data {
        XattrData::Embedded(_) => "e".to_string(),
        XattrData::Stream { obj_id, .. } => format!("s {obj_id}"),
    };
    format!("(attr {} {} {form} {})\n", x.flags, hex(x.name.as_bytes()), hex(data))
}

/// Request 08: node forms, bytes shown in data forms, and attribute forms.
pub fn total(nodes: u64, bytes: u64, attributes: u64) -> String {
    format!("(total {nodes} {bytes} {attributes})\n")
}

pub fn extent(e: &Extent) -> String {
    format!("(extent {} {} {})\n", e.logical, e.len, e.phys_block)
}
