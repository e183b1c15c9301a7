//! What is looked up in a map.

use std::collections::BTreeSet;

use sticks::random::Random;

use crate::maps::walk::Entry;
use crate::maps::Key;

/// Of a map with more, so many are drawn.
const MOST: usize = 2000;

/// A number, and those one below and one above, of which 0 and the greatest are neighbours.
fn about(n: u64) -> [u64; 3] {
    [n.wrapping_sub(1), n, n.wrapping_add(1)]
}

fn about_key((oid, xid): Key) -> impl Iterator<Item = Key> {
    let xids = move || about(xid).into_iter().chain([0, u64::MAX]);
    about(oid).into_iter().flat_map(move |oid| xids().map(move |xid| (oid, xid)))
}

/// The numbers about those of each entry, and the least and the greatest.
pub fn targets(entries: &[&Entry], random: &mut Random) -> Vec<Key> {
    let keys = entries.iter().map(|entry| entry.key).chain([(0, 0)]);
    let all: BTreeSet<Key> = keys.flat_map(about_key).collect();
    let mut all: Vec<Key> = all.into_iter().collect();
    if all.len() > MOST {
        random.shuffle(&mut all);
        all.truncate(MOST);
    }
    all
}
