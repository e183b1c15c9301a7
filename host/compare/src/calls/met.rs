//! What stood in the volumes that calls were made on, counted by inode.

use std::collections::BTreeMap;
use std::fmt;

use oracle::fs::{DirEntry, Extent, Xattr, XattrData};

use crate::calls::lists::Lists;
use crate::calls::stream::LONGEST;

type Is<T> = (&'static str, fn(&T) -> bool);

const INODES: [Is<Lists>; 9] = [
    ("several extents", |l| extents(l).len() > 1),
    ("no data stream", |l| l.inode.as_ref().is_some_and(|i| i.dstream.is_none())),
    ("size 0", |l| l.inode.as_ref().is_some_and(|i| i.dstream.is_some()) && l.size() == 0),
    ("size 0 with extents", |l| !extents(l).is_empty() && l.size() == 0),
    ("size past the extents", |l| extents(l).last().is_some_and(|e| e.logical.saturating_add(e.len) < l.size())),
    ("compressed", |l| l.inode.as_ref().is_some_and(|i| i.is_compressed())),
    ("negative links", |l| l.inode.as_ref().is_some_and(|i| i.nchildren_or_nlink < 0)),
    ("replaced parts in an inode's name", |l| l.inode.as_ref().is_some_and(|i| replaced(i.name.as_deref()))),
    ("another private id", |l| l.inode.as_ref().is_some_and(|i| i.private_id != i.id)),
];

const PAIRS: [Is<[Extent]>; 5] = [
    ("gaps", |w| w[0].logical.saturating_add(w[0].len) < w[1].logical),
    ("equal starts", |w| w[0].logical == w[1].logical),
    ("descending starts", |w| w[0].logical > w[1].logical),
    ("overlaps in order", |w| within(w) && w[1].len > 0),
    ("no length within another", |w| within(w) && w[1].len == 0),
];

const DIRECTORIES: [Is<Vec<DirEntry>>; 4] = [
    ("replaced parts in an entry's name", |d| d.iter().any(|e| replaced(Some(&e.name)))),
    ("wide names", |d| d.iter().any(|e| !e.name.is_ascii())),
    ("equal names", |d| twice(d, |e| e.name.clone())),
    ("names that differ in case alone", |d| twice(d, |e| e.name.to_ascii_lowercase()) && !twice(d, |e| e.name.clone())),
];

const ATTRIBUTES: [Is<Xattr>; 5] = [
    ("embedded attributes", |x| matches!(x.data, XattrData::Embedded(_))),
    ("streamed attributes", |x| matches!(x.data, XattrData::Stream { .. })),
    ("long streams", |x| matches!(x.data, XattrData::Stream { size, .. } if size > LONGEST)),
    ("embedded links", |x| is_link(x) && matches!(x.data, XattrData::Embedded(_))),
    ("streamed links", |x| is_link(x) && matches!(x.data, XattrData::Stream { .. })),
];

fn extents(l: &Lists) -> &[Extent] {
    l.extents.as_deref().unwrap_or_default()
}

fn replaced(name: Option<&str>) -> bool {
    name.is_some_and(|n| n.contains('\u{fffd}'))
}

fn within(w: &[Extent]) -> bool {
    w[0].logical <= w[1].logical && w[0].logical.saturating_add(w[0].len) > w[1].logical
}

fn twice(list: &[DirEntry], key: fn(&DirEntry) -> String) -> bool {
    let mut keys: Vec<String> = list.iter().map(key).collect();
    keys.sort();
    keys.windows(2).any(|w| w[0] == w[1])
}

fn is_link(x: &Xattr) -> bool {
    x.name == "com.apple.fs.symlink"
}

#[derive(Clone, Debug, Default)]
pub struct Met {
    pub seen: BTreeMap<&'static str, u64>,
}

impl Met {
    fn note(&mut self, what: &'static str, is: bool) {
        *self.seen.entry(what).or_default() += u64::from(is);
    }

    pub fn count(&mut self, l: &Lists, block_count: u64, block_size: u64) {
        let entries = l.entries.as_ref();
        let xattrs = l.xattrs.as_deref().unwrap_or_default();
        INODES.iter().for_each(|(what, is)| self.note(what, is(l)));
        PAIRS.iter().for_each(|(what, is)| self.note(what, extents(l).windows(2).any(is)));
        DIRECTORIES.iter().for_each(|(what, is)| self.note(what, entries.is_some_and(is)));
        ATTRIBUTES.iter().for_each(|(what, is)| self.note(what, xattrs.iter().any(is)));
        let past = |e: &Extent| e.phys_block.saturating_add(e.len.div_ceil(block_size)) > block_count;
        self.note("extents past the block count", extents(l).iter().any(past));
        self.note("holes", extents(l).iter().any(|e| e.phys_block == 0));
        self.note("extents of no length", extents(l).iter().any(|e| e.len == 0));
    }

    pub fn missing(&self) -> Vec<String> {
        self.seen.iter().filter(|(_, n)| **n == 0).map(|(what, _)| what.to_string()).collect()
    }
}

impl fmt::Display for Met {
    fn fmt(&self, f: &mut fmt::Formatter) -> fmt::Result {
        let words: Vec<String> = self.seen.iter().map(|(what, n)| format!("{what} {n}")).collect();
        writeln!(f, "inodes with {}", words.join("; "))
    }
}
