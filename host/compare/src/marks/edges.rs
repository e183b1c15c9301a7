//! Sticks that no seed draws.

use sticks::plan::places;
use sticks::volume::{Lost, FAR};
use sticks::{make, Plan};

use crate::marks::run::longer;

const SIZES: [usize; 5] = [4096, 8192, 16384, 32768, 65536];

/// Records without bytes at the end of blocks of each size; block counts below and above what the image has; and a node
/// so far off that its address has no place in 64 bits.
pub fn images() -> Vec<Vec<u8>> {
    let of = |size: usize| {
        let plan = places::plan(size);
        let counted = Plan { spare: 3, counted_blocks_present: false, ..plan.clone() };
        let whole = make(plan).image;
        let behind = longer(&whole, size as u64);
        [whole, behind, make(counted).image]
    };
    SIZES.into_iter().flat_map(of).chain([far()]).collect()
}

fn far() -> Vec<u8> {
    let mut plan = places::plan(SIZES[0]);
    (plan.spare, plan.counted_blocks_present, plan.volumes[0].lost) = (2 * FAR, false, Some(Lost::Far));
    make(plan).image
}
