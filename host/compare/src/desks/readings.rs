//! The readings of document 01, fs.rs: each is one walk through the volume's tree. An inode's goes up to its record, a
//! list's over all its records, and either ends at a fault.

use oracle::fs::{
    DirEntry, Extent, FileKind, Inode, Xattr, XattrData, APFS_TYPE_DIR_REC, APFS_TYPE_FILE_EXTENT, APFS_TYPE_INODE,
    APFS_TYPE_XATTR,
};
use oracle::probe;
use sticks::contents::text;

use crate::calls::directory::Rule;
use crate::calls::keys;
use crate::desks::opening::Volume;
use crate::maps::node::number;
use crate::trees::{Record, Walker};

const KIND: u16 = 0xf;
const STREAM: u16 = 0x1;
const LENGTH: u64 = (1 << 56) - 1;

/// Of a volume, up to the first that is refused.
pub struct Readings<'w, 'a> {
    pub walker: &'w mut Walker<'a>,
    pub volume: &'w Volume<'a>,
    /// By what a directory key's form is told.
    pub keys: Rule,
}

impl<'a> Readings<'_, 'a> {
    /// How an inode's value is read is the Rust's.
    pub fn inode(&mut self, id: u64) -> Option<Inode> {
        let mut found = None;
        self.walker.scan(&self.volume.tree, (id, APFS_TYPE_INODE), &mut |record| {
            found = Some(probe::inode(id, record.value()).ok()?);
            Some(false)
        })?;
        found
    }

    fn list<T>(&mut self, id: u64, kind: u8, read: &dyn Fn(&Record<'a>) -> Option<T>) -> Option<Vec<T>> {
        let mut list = Vec::new();
        self.walker.scan(&self.volume.tree, (id, kind), &mut |record| {
            list.push(read(record)?);
            Some(true)
        })?;
        Some(list)
    }

    pub fn entries(&mut self, id: u64) -> Option<Vec<DirEntry>> {
        let (rule, hashed) = (self.keys, keys::are_hashed(self.volume.superblock));
        self.list(id, APFS_TYPE_DIR_REC, &|record| {
            let name = match rule {
                Rule::Kind => keys::name(record.key(), hashed),
                Rule::Length => keys::by_length(record.key()),
            };
            Some(DirEntry {
                name: text(name?),
                file_id: number(record.value(), 0, 8)?,
                date_added: number(record.value(), 8, 8)?,
                kind: FileKind::from_dt(number(record.value(), 16, 2)? as u16 & KIND),
            })
        })
    }

    pub fn attributes(&mut self, id: u64) -> Option<Vec<Xattr>> {
        self.list(id, APFS_TYPE_XATTR, &attribute)
    }

    pub fn extents(&mut self, stream: u64) -> Option<Vec<Extent>> {
        self.list(stream, APFS_TYPE_FILE_EXTENT, &|record| {
            let (logical, value) = (number(record.key(), 8, 8)?, record.value());
            Some(Extent { logical, len: number(value, 0, 8)? & LENGTH, phys_block: number(value, 8, 8)? })
        })
    }
}

fn attribute(record: &Record) -> Option<Xattr> {
    let part = |bytes: &'_ [u8], at: usize, length: u64| bytes.get(at..at + length as usize).map(<[u8]>::to_vec);
    let (key, value) = (record.key(), record.value());
    let name = part(key, 10, number(key, 8, 2)?)?;
    let flags = number(value, 0, 2)? as u16;
    let data = part(value, 4, number(value, 2, 2)?)?;
    let data = match flags & STREAM {
        0 => XattrData::Embedded(data),
        _ => XattrData::Stream { obj_id: number(&data, 0, 8)?, size: number(&data, 8, 8)? },
    };
    Some(Xattr { name: text(&name), flags, data })
}
