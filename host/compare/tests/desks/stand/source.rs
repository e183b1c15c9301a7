//! Nodes as the Rust reads them, without its cache: its own lookups and scans go through them, and each is counted.

use std::cell::{Cell, RefCell};
use std::collections::{BTreeSet, HashMap};
use std::sync::Arc;

use oracle::btree::{Node, NodeSource};
use oracle::checksum;
use oracle::error::{Error, Result};
use oracle::omap::Omap;
use sticks::block::{get32, get64};

use super::slip::Slip;

/// An object map, and the block of its root.
pub struct Map {
    omap: Omap,
    root: u64,
    xid: u64,
}

pub struct Source {
    pub part: Arc<Vec<u8>>,
    pub slip: Slip,
    /// What the Rust makes of a block.
    known: RefCell<HashMap<u64, Option<Arc<Node>>>>,
    count: Cell<u64>,
    seen: RefCell<BTreeSet<u64>>,
    /// Whether nothing is counted for now.
    quiet: Cell<bool>,
}

pub fn corrupt(words: &str) -> Error {
    Error::Corrupt(words.into())
}

impl Source {
    pub fn of(part: Arc<Vec<u8>>, slip: Slip) -> Source {
        let (known, count, seen, quiet) = Default::default();
        Source { part, slip, known, count, seen, quiet }
    }

    pub fn has(&self, slip: Slip) -> bool {
        self.slip == slip
    }

    pub fn count(&self) -> u64 {
        self.count.get()
    }

    pub fn set(&self, count: u64) {
        self.count.set(count);
    }

    /// For another call.
    pub fn reset(&self) {
        self.set(0);
        if !self.has(Slip::CountedOnceByTheDock) {
            self.seen.borrow_mut().clear();
        }
    }

    pub fn tick(&self, block: u64) {
        let once = matches!(self.slip, Slip::CountedOnce | Slip::CountedOnceByTheDock);
        let new = self.seen.borrow_mut().insert(block);
        self.set(self.count() + u64::from(!self.quiet.get() && (new || !once)));
    }

    /// Without counting, where it is not to be counted.
    pub fn unless<T>(&self, uncounted: bool, f: impl FnOnce() -> T) -> T {
        let before = self.quiet.replace(uncounted || self.quiet.get());
        let out = f();
        self.quiet.set(before);
        out
    }

    fn block(&self, block: u64) -> Option<&[u8]> {
        let (size, count) = (get32(&self.part, 36) as usize, get64(&self.part, 40));
        let start = usize::try_from(block).ok().filter(|_| block != 0 && block < count)?.checked_mul(size)?;
        self.part.get(start..start.checked_add(size)?)
    }

    pub fn object(&self, block: u64) -> Result<&[u8]> {
        let bytes = self.block(block).filter(|b| checksum::verify(b)).ok_or_else(|| corrupt("no object"))?;
        if self.has(Slip::ObjectsCounted) {
            self.tick(block);
        }
        Ok(bytes)
    }

    fn parsed(&self, block: u64) -> Option<Arc<Node>> {
        let bytes = self.block(block).filter(|b| checksum::verify(b))?;
        Node::parse(bytes.to_vec()).ok().map(Arc::new)
    }

    /// Loads the map in a block as of a transaction.
    pub fn map(&self, block: u64, xid: u64) -> Result<Map> {
        let object = self.object(block)?;
        Ok(Map { omap: Omap::load(self, object)?, root: get64(object, 48), xid })
    }

    /// What a map says of an object: its flags and its block.
    pub fn mapped(&self, map: &Map, oid: u64) -> Result<(u32, u64)> {
        self.unless(self.has(Slip::RootNotInLookups), || self.tick(map.root));
        let hit = map.omap.lookup(self, oid, map.xid)?;
        hit.map(|v| (v.flags, v.paddr)).ok_or_else(|| corrupt("absent"))
    }
}

impl NodeSource for Source {
    fn read_node(&self, block: u64) -> Result<Arc<Node>> {
        let node = self.known.borrow_mut().entry(block).or_insert_with(|| self.parsed(block)).clone();
        if node.is_some() || self.has(Slip::CountedBeforePassing) && self.block(block).is_some() {
            self.tick(block);
        }
        node.ok_or_else(|| corrupt("no node"))
    }
}
