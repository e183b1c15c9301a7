//! Opening and the readings of a volume, by the Rust's parts.

use std::cmp::Ordering;
use std::sync::Arc;

use compare::calls::keys;
use compare::desks::opening::superblock;
use compare::desks::request::Request;
use oracle::btree::{self, BTreeInfo, Node, NodeSource};
use oracle::error::Result;
use oracle::fs::{
    DirEntry, Extent, FileKind, Inode, Xattr, XattrData, APFS_TYPE_DIR_REC, APFS_TYPE_FILE_EXTENT, APFS_TYPE_INODE,
    APFS_TYPE_XATTR,
};
use oracle::nx::{ApfsSuperblock, NxSuperblock};
use oracle::probe;

use super::slip::Slip as S;
use super::source::{corrupt, Map, Source};

const VERSION_1_OR_FUSION: u64 = 0x101;
const ENCRYPTED: u32 = 0x4;

pub struct Container<'s> {
    source: &'s Source,
    sb: NxSuperblock,
    map: Map,
}

impl<'s> Container<'s> {
    pub fn open(source: &'s Source, r: &Request) -> Result<Container<'s>> {
        let sb = superblock(&source.part, r.checkpoint()).ok_or_else(|| corrupt("no checkpoint"))?;
        let sb = NxSuperblock::parse(sb)?;
        if sb.incompat_features & VERSION_1_OR_FUSION != 0 {
            return Err(corrupt("not supported"));
        }
        let map = source.unless(source.has(S::ContainerRootNotLoaded), || source.map(sb.omap_oid, sb.hdr.xid))?;
        Ok(Container { source, sb, map })
    }

    pub fn volume(&self, index: u64) -> Result<Volume<'s>> {
        let source = self.source;
        let oid = usize::try_from(index).ok().and_then(|i| self.sb.fs_oids.get(i)).ok_or_else(|| corrupt("none"))?;
        let mapped = || source.mapped(&self.map, *oid);
        let (_, block) = source.unless(source.has(S::VolumeNotLookedUp), mapped)?;
        let sb = ApfsSuperblock::parse(source.object(block)?)?;
        if sb.is_encrypted() || sb.is_sealed() {
            return Err(corrupt("not supported"));
        }
        let xid = self.sb.hdr.xid;
        let map = source.unless(source.has(S::VolumeRootNotLoaded), || source.map(sb.omap_oid, xid))?;
        let block = resolved(source, &map, sb.root_tree_oid)?;
        let root = source.unless(source.has(S::TreeRootNotLoaded), || source.read_node(block))?;
        let info = root.info()?;
        Ok(Volume { source, sb, map, root, block, info })
    }
}

fn resolved(source: &Source, map: &Map, oid: u64) -> Result<u64> {
    let (flags, block) = source.mapped(map, oid)?;
    if flags & ENCRYPTED != 0 {
        return Err(corrupt("encrypted"));
    }
    Ok(block)
}

pub struct Volume<'s> {
    pub source: &'s Source,
    pub sb: ApfsSuperblock,
    map: Map,
    root: Arc<Node>,
    block: u64,
    info: BTreeInfo,
}

type Read<'f, T> = &'f dyn Fn(&[u8], &[u8]) -> Result<T>;
type Each<'f> = &'f mut dyn FnMut(&[u8], &[u8]) -> Result<bool>;

impl Volume<'_> {
    pub fn has(&self, slip: S) -> bool {
        self.source.has(slip)
    }

    pub fn records(&self, id: u64, kind: u8, each: Each) -> Result<()> {
        let window = |key: &[u8]| -> Result<Ordering> {
            let head = probe::u64_at(key, 0)?;
            Ok((head & ((1 << 60) - 1), (head >> 60) as u8).cmp(&(id, kind)))
        };
        let source = self.source;
        let resolve = |oid: u64| source.unless(self.has(S::MapWalksNotCounted), || resolved(source, &self.map, oid));
        source.unless(self.has(S::RootNotInScans), || source.tick(self.block));
        btree::scan(source, &self.root, &self.info, &resolve, &window, each)
    }

    pub fn inode(&self, id: u64) -> Result<Inode> {
        let mut found = None;
        self.records(id, APFS_TYPE_INODE, &mut |_, value| {
            if found.is_none() {
                found = Some(probe::inode(id, value)?);
            }
            Ok(self.has(S::InodeToTheEnd))
        })?;
        found.ok_or_else(|| corrupt("no inode"))
    }

    fn list<T>(&self, id: u64, kind: u8, read: Read<T>) -> Result<Vec<T>> {
        let mut list = Vec::new();
        self.records(id, kind, &mut |key, value| {
            list.push(read(key, value)?);
            Ok(true)
        })?;
        Ok(list)
    }

    /// As many as are to be read.
    pub fn first_entries(&self, id: u64, n: u64) -> Result<Vec<DirEntry>> {
        let (mut list, hashed) = (Vec::new(), keys::are_hashed(&self.sb.raw));
        self.records(id, APFS_TYPE_DIR_REC, &mut |key, value| {
            list.push(entry(key, value, hashed)?);
            Ok((list.len() as u64) < n)
        })?;
        Ok(list)
    }

    pub fn entries(&self, id: u64) -> Result<Vec<DirEntry>> {
        self.first_entries(id, u64::MAX)
    }

    pub fn attributes(&self, id: u64) -> Result<Vec<Xattr>> {
        self.list(id, APFS_TYPE_XATTR, &attribute)
    }

    pub fn extents(&self, stream: u64) -> Result<Vec<Extent>> {
        self.list(stream, APFS_TYPE_FILE_EXTENT, &|key, value| {
            let len = probe::u64_at(value, 0)? & ((1 << 56) - 1);
            Ok(Extent { logical: probe::u64_at(key, 8)?, len, phys_block: probe::u64_at(value, 8)? })
        })
    }
}

fn entry(key: &[u8], value: &[u8], hashed: bool) -> Result<DirEntry> {
    let field = keys::name(key, hashed).ok_or_else(|| corrupt("a key of another form"))?;
    let kind = FileKind::from_dt(probe::u16_at(value, 16)? & 0xf);
    let (file_id, date_added) = (probe::u64_at(value, 0)?, probe::u64_at(value, 8)?);
    Ok(DirEntry { name: probe::cstr(field), file_id, date_added, kind })
}

fn attribute(key: &[u8], value: &[u8]) -> Result<Xattr> {
    let name = probe::slice_at(key, 10, probe::u16_at(key, 8)?.into())?;
    let flags = probe::u16_at(value, 0)?;
    let data = probe::slice_at(value, 4, probe::u16_at(value, 2)?.into())?;
    let data = match flags & 1 {
        0 => XattrData::Embedded(data.to_vec()),
        _ => XattrData::Stream { obj_id: probe::u64_at(data, 0)?, size: probe::u64_at(data, 8)? },
    };
    Ok(Xattr { name: probe::cstr(name), flags, data })
}
