//! A stick for the edges of where records stand in their blocks.

use crate::node::Record;
use crate::plan::{large, ring, Plan};
use crate::record::head;

/// Records of this kind have no bytes for a value.
pub const EMPTY: u64 = 12;
pub const EMPTY_IDS: std::ops::Range<u64> = 20..24;
/// Between two records of this id and kind stands an entry without a value.
pub const BETWEEN: (u64, u64) = (40, 4);

/// Two records a leaf at most, below a root. In a leaf that begins with an empty value, that stands at the block's end.
pub fn plan(block_size: usize) -> Plan {
    let mut contents = large::chain(0, 0);
    contents.others = EMPTY_IDS.map(|id| Record::new(head(id, EMPTY), Vec::new())).collect();
    let key = |n: u8| [head(BETWEEN.0, BETWEEN.1), vec![n; 3]].concat();
    contents.others.extend([
        Record::new(key(1), b"one".to_vec()),
        Record::ghost(key(2)),
        Record::new(key(3), b"three".to_vec()),
    ]);
    let mut plan = Plan::with_contents(contents, 1);
    plan.volumes[0].tree.leaf = 2;
    Plan { block_size, ring: ring::full(plan.xid, 2), history: false, ..plan }
}
