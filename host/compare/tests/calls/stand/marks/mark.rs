//! The bookmark of a record.

use std::cmp::Ordering;

use compare::opening::answer::caught;
use oracle::btree::{BTreeInfo, Node};
use oracle::fs::Volume;
use oracle::nx::Container;
use oracle::probe;

use super::form::{Fields, MISSING};
use super::slip::Slip as S;
use crate::stand::{class, test, Answer};

struct Search<'a> {
    c: &'a Container,
    v: &'a Volume<'a>,
    info: BTreeInfo,
    want: (u64, u8),
    /// Records to pass over.
    left: u64,
    found: Option<Fields>,
    slip: S,
}

/// Where a part of a block begins, and its length.
fn part(block: &[u8], part: &[u8]) -> [u32; 2] {
    [(part.as_ptr() as usize - block.as_ptr() as usize) as u32, part.len() as u32]
}

impl Search<'_> {
    fn order(&self, key: &[u8]) -> Answer<Ordering> {
        let head = key.get(..8).ok_or(2)?;
        let n = u64::from_le_bytes(head.try_into().expect("8 bytes"));
        let of = (n & 0x0fff_ffff_ffff_ffff, (n >> 60) as u8);
        Ok(if self.slip == S::KindIgnored { of.0.cmp(&self.want.0) } else { of.cmp(&self.want) })
    }

    fn entry<'n>(&self, node: &'n Node, i: usize) -> Answer<(&'n [u8], Option<&'n [u8]>)> {
        node.entry(i, &self.info).map_err(class)
    }

    /// Whether to go on.
    fn node(&mut self, node: &Node, block: u64) -> Answer<bool> {
        let keys = node.nkeys as usize;
        if node.is_leaf() {
            return self.leaf(node, block);
        }
        for i in 0..keys {
            let (key, value) = self.entry(node, i)?;
            if self.order(key)? == Ordering::Greater {
                return Ok(false);
            }
            if i + 1 < keys && self.order(self.entry(node, i + 1)?.0)? == Ordering::Less {
                continue;
            }
            let child = value.and_then(|v| v.get(..8)).ok_or(2)?;
            let oid = u64::from_le_bytes(child.try_into().expect("8 bytes"));
            let (child, at) = (probe::tree_node(self.v, oid).map_err(class)?, probe::tree_block(self.v, oid));
            test(child.level + 1 == node.level, 2)?;
            if !self.node(&child, at.map_err(class)?)? {
                return Ok(false);
            }
        }
        Ok(true)
    }

    fn leaf(&mut self, node: &Node, block: u64) -> Answer<bool> {
        for i in 0..node.nkeys as usize {
            let (key, value) = self.entry(node, i)?;
            match self.order(key)? {
                Ordering::Less => continue,
                Ordering::Greater => return Ok(false),
                Ordering::Equal => {}
            }
            if !self.record(node, block, (key, value)) {
                return Ok(false);
            }
        }
        Ok(true)
    }

    /// Whether to go on.
    fn record(&mut self, node: &Node, block: u64, (key, value): (&[u8], Option<&[u8]>)) -> bool {
        if value.is_none() && !matches!(self.slip, S::GhostsCounted | S::GhostsMarked) || self.found.is_some() {
            return true;
        }
        if self.left > 0 || value.is_none() && self.slip == S::GhostsCounted {
            self.left = self.left.saturating_sub(1);
            return true;
        }
        self.found = Some(self.fields(node, block, (key, value)));
        self.slip == S::RecordBehindRead
    }

    fn fields(&self, node: &Node, block: u64, (key, value): (&[u8], Option<&[u8]>)) -> Fields {
        let size = self.c.block_size();
        let value = value.map_or(MISSING, |value| part(&node.data, value));
        let mut f = Fields { block, key: part(&node.data, key), value };
        match self.slip {
            S::RootsBlock => f.block = probe::tree_block(self.v, self.v.sb.root_tree_oid).unwrap_or(0),
            S::OidForBlock => f.block = node.hdr.oid,
            S::ByteForBlock => f.block *= u64::from(size),
            S::KeyFromTable => f.key[0] -= 56,
            S::ValueFromEnd => f.value[0] = size.saturating_sub(f.value[0]),
            _ => {}
        }
        f
    }
}

fn searched(c: &Container, volume: u64, (id, kind, place): (u64, u8, u64), slip: S) -> Answer<Option<Fields>> {
    let v = c.volume(volume as usize).map_err(class)?;
    if slip == S::InodeFirst {
        v.inode(id).map_err(class)?;
    }
    test(kind < 16 || slip != S::KindRefused, 4)?;
    let id = if slip == S::IdMasked { id & 0x0fff_ffff_ffff_ffff } else { id };
    let kind = if slip == S::KindMasked { kind & 15 } else { kind };
    let left = match slip {
        S::CountedFromOne => place.saturating_sub(1),
        S::PlaceOf32Bits => place & 0xffff_ffff,
        _ => place,
    };
    let info = v.fs_root().info().map_err(class)?;
    let root = probe::tree_block(&v, v.sb.root_tree_oid).map_err(class)?;
    let mut search = Search { c, v: &v, info, want: (id, kind), left, found: None, slip };
    search.node(v.fs_root(), root)?;
    Ok(search.found)
}

/// Nothing past the end.
pub fn bytes(c: &Container, volume: u64, asked: (u64, u8, u64), slip: S) -> Answer<Vec<u8>> {
    match caught(|| searched(c, volume, asked, slip)).unwrap_or(Err(8))? {
        Some(fields) => Ok(fields.written(slip)),
        None if slip == S::FourPastTheEnd => Err(4),
        None => Ok(Vec::new()),
    }
}
