//! How far sticks let the oracle's calls get: each call on what a stick holds, and what became of it.

use std::collections::{BTreeMap, BTreeSet, VecDeque};
use std::fmt::Write as _;
use std::sync::Arc;

use oracle::error::Result;
use oracle::fs::{Inode, Volume, XattrData};
use oracle::nx::Container;
use oracle::probe;
use sticks::{damage, Stick};

use crate::opening::answer::{self, caught, Answer};
use crate::opening::outside::outside;
use crate::opening::run::stick_seed;

/// A damaged size may be anything, and the oracle allocates a stream's whole size first.
const LARGEST_STREAM: u64 = 1 << 24;
const MOST_FILES: usize = 200;

#[derive(Default)]
pub struct Reach {
    /// By call and by what became of it.
    pub seen: BTreeMap<(&'static str, String), u64>,
}

impl Reach {
    fn note<T>(&mut self, call: &'static str, f: impl FnOnce() -> Result<T>) -> Option<T> {
        let (outcome, value) = match caught(f) {
            Ok(Ok(value)) => ("done".to_string(), Some(value)),
            Ok(Err(e)) => (probe::class(&e).to_string(), None),
            Err(Answer::Overflow) => ("overflow".to_string(), None),
            Err(other) => (other.to_string(), None),
        };
        *self.seen.entry((call, outcome)).or_default() += 1;
        value
    }

    /// Each stick whole and damaged twice.
    pub fn over(seed: u64, count: u64) -> Reach {
        let mut reach = Reach::default();
        for i in 0..count {
            let seed = stick_seed(seed, i);
            let image = Stick::from_seed(seed).image;
            for b in [damage(&image, seed), damage(&image, !seed), image] {
                reach.stick(b);
            }
        }
        reach
    }

    fn stick(&mut self, image: Vec<u8>) {
        if outside(&image).is_some() {
            return;
        }
        let image = Arc::new(image);
        let Some(c) = self.note("open", || answer::container(&image)) else { return };
        for i in 0..c.sb.fs_oids.len().min(8) {
            self.volume(&c, i);
        }
    }

    fn volume(&mut self, c: &Container, i: usize) {
        let Some(v) = self.note("volume", || c.volume(i)) else { return };
        for path in ["", "a", "README", "a/b", "notes.txt\\x"] {
            self.note("lookup_path", || v.lookup_path(path));
        }
        let mut ids = VecDeque::from([2, 3]);
        let mut met = BTreeSet::new();
        while let Some(id) = ids.pop_front() {
            if met.len() < MOST_FILES && met.insert(id) {
                ids.extend(self.file(&v, id));
            }
        }
    }

    /// All calls on one inode; the ids that its entries name.
    fn file(&mut self, v: &Volume, id: u64) -> Vec<u64> {
        if let Some(inode) = self.note("inode", || v.inode(id)) {
            self.data(v, &inode);
        }
        for x in self.note("xattrs", || v.xattrs(id)).unwrap_or_default() {
            let large = matches!(x.data, XattrData::Stream { size, .. } if size > LARGEST_STREAM);
            if !large {
                self.note("read_xattr", || v.read_xattr(&x));
            }
        }
        let entries = self.note("read_dir", || v.read_dir(id)).unwrap_or_default();
        entries.iter().map(|e| e.file_id).collect()
    }

    fn data(&mut self, v: &Volume, inode: &Inode) {
        self.note("file_extents", || v.file_extents(inode));
        let size = inode.dstream.map_or(0, |d| d.size);
        for off in [0, 5000, size / 2, size.saturating_sub(1)] {
            self.note("read_at", || v.read_at(inode, off, &mut [0; 20_000]));
        }
    }

    pub fn report(&self) -> String {
        let mut lines: BTreeMap<&str, String> = BTreeMap::new();
        for ((call, outcome), n) in &self.seen {
            let line = lines.entry(call).or_insert_with(|| format!("{call:12}"));
            write!(line, " {outcome} {n};").unwrap();
        }
        lines.into_values().map(|l| l + "\n").collect()
    }
}
