//! The records of an id and a kind.

use std::cmp::Ordering;

use oracle::btree::{BTreeInfo, Node};
use oracle::probe;

use super::mistake::Mistake as M;
use super::{class, test, Answer, Stand};

pub type Each<'f> = &'f mut dyn FnMut(&[u8], &[u8]) -> Answer<bool>;

struct Walk<'w, 's> {
    stand: &'w Stand<'s>,
    info: BTreeInfo,
    want: (u64, u64),
}

impl Stand<'_> {
    /// Calls `f` with key and value of each, until it answers false.
    pub fn records(&self, id: u64, kind: u64, f: Each) -> Answer<()> {
        let root = self.v.fs_root();
        let info = root.info().map_err(class)?;
        Walk { stand: self, info, want: (id, kind) }.node(root, f).map(|_| ())
    }
}

impl Walk<'_, '_> {
    fn order(&self, key: &[u8]) -> Answer<Ordering> {
        let head = key.get(..8).ok_or(2)?;
        let n = u64::from_le_bytes(head.try_into().expect("8 bytes"));
        Ok((n & 0x0fff_ffff_ffff_ffff, n >> 60).cmp(&self.want))
    }

    fn has(&self, m: M) -> bool {
        self.stand.has(m)
    }

    /// Whether to go on.
    fn node(&self, node: &Node, f: Each) -> Answer<bool> {
        if node.is_leaf() {
            return self.leaf(node, f);
        }
        let keys = node.nkeys as usize;
        for i in 0..keys {
            let (key, value) = node.entry(i, &self.info).map_err(class)?;
            if self.order(key)? == Ordering::Greater && !self.has(M::NeverStops) {
                return Ok(false);
            }
            if i + 1 < keys && !self.has(M::NextKeyIgnored) {
                let (next, _) = node.entry(i + 1, &self.info).map_err(class)?;
                if self.order(next)? == Ordering::Less {
                    continue;
                }
            }
            let child = value.and_then(|v| v.get(..8)).ok_or(2)?;
            let oid = u64::from_le_bytes(child.try_into().expect("8 bytes"));
            let child = probe::tree_node(self.stand.v, oid).map_err(class)?;
            test(child.level + 1 == node.level || self.has(M::LevelIgnored) && child.level < node.level, 2)?;
            if !self.node(&child, f)? {
                return Ok(false);
            }
        }
        Ok(true)
    }

    fn leaf(&self, node: &Node, f: Each) -> Answer<bool> {
        test(node.level == 0 || !self.has(M::LeafAboveRefused), 2)?;
        for i in 0..node.nkeys as usize {
            let (key, value) = node.entry(i, &self.info).map_err(class)?;
            match self.order(key)? {
                Ordering::Less => continue,
                Ordering::Greater if self.has(M::NeverStops) => continue,
                Ordering::Greater => return Ok(false),
                Ordering::Equal => {}
            }
            let on = match value {
                Some(value) => f(key, value)?,
                None if self.has(M::GhostsTaken) => f(key, &[])?,
                None => !self.has(M::GhostEnds),
            };
            if !on {
                return Ok(false);
            }
        }
        Ok(true)
    }
}
