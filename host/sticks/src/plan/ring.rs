//! The checkpoints of a ring: one to be taken among older, broken and equal ones.

use crate::checkpoint::{Checkpoint, Fault, Ring};
use crate::random::Random;

const OF_SUPERBLOCK: [Fault; 3] = [Fault::Checksum, Fault::Magic, Fault::Kind];
const OF_MAPS: [Fault; 6] =
    [Fault::MapChecksum, Fault::MapKind, Fault::MapXid, Fault::MapCount, Fault::Length, Fault::Address];

/// With `none`, no checkpoint is sound.
pub fn draw(xid: u64, none: bool, r: &mut Random) -> Ring {
    let blocks = r.pick(&[1, 1, 2, 3, 4, 5, 6, 8, 8, 8, 12, 20, 40]);
    let mut checkpoints = vec![checkpoint(xid, blocks, r)];
    let mut left = blocks - checkpoints[0].blocks();
    while left > 0 && r.chance(7, 8) {
        let c = checkpoint(neighbour(xid, r), left, r);
        left -= c.blocks();
        checkpoints.push(c);
    }
    checkpoints[0].current = true;
    r.shuffle(&mut checkpoints);
    let mut ring = Ring { blocks, start: r.below(u64::from(blocks)) as u32, checkpoints };
    settle(&mut ring, xid, none, r);
    ring
}

fn neighbour(xid: u64, r: &mut Random) -> u64 {
    match r.below(4) {
        0 => xid,
        1 => xid.saturating_add(1 + r.below(3)),
        _ => xid.saturating_sub(1 + r.below(9)),
    }
}

/// A sound checkpoint that fits in `room` blocks.
fn checkpoint(xid: u64, room: u32, r: &mut Random) -> Checkpoint {
    let most = room.min(5);
    let apart = room <= 8 && r.chance(1, 8);
    let maps = r.below(u64::from(most) + u64::from(apart)) as u32;
    let last = (maps > 0 && r.chance(1, 2)).then(|| r.below(u64::from(maps)) as u32);
    let mut c = Checkpoint { xid, maps, last, length: maps + 1, apart, turns: 0, fault: None, current: false };
    if r.chance(1, 3) {
        c.turns = r.pick(&[1, 2, 1 << 20]);
    }
    if let Some(l) = last {
        c.length = r.pick(&[l + 2, maps + 1, room + 5, u32::MAX]).max(l + 2);
    } else if r.chance(1, 4) {
        c.length = r.below(u64::from(maps) + 2) as u32;
    }
    c
}

/// Every checkpoint that would be taken before the current one is spoiled, and some others.
fn settle(ring: &mut Ring, xid: u64, none: bool, r: &mut Random) {
    let places = ring.places();
    let current = ring.checkpoints.iter().position(|c| c.current).expect("one is current");
    let at = places[current].1;
    let blocks = ring.blocks;
    for (c, &(_, place)) in ring.checkpoints.iter_mut().zip(&places) {
        repeat(c, blocks, r);
        let ahead = c.xid > xid || (c.xid == xid && place < at);
        let spoil = if c.current { none } else { none || ahead || r.chance(1, 4) };
        if spoil {
            break_one(c, blocks, r);
        }
    }
}

/// Maps apart that fill their ring may be gone round many times.
fn repeat(c: &mut Checkpoint, blocks: u32, r: &mut Random) {
    if c.apart && c.maps == blocks && c.last.is_none() && r.chance(1, 2) {
        c.length = blocks * r.between(1, 40) as u32 + r.below(3) as u32;
    }
}

fn break_one(c: &mut Checkpoint, blocks: u32, r: &mut Random) {
    if c.read() == 0 || r.chance(1, 3) {
        c.fault = Some(r.pick(&OF_SUPERBLOCK));
        return;
    }
    let mut fault = r.pick(&OF_MAPS);
    if fault == Fault::Length && c.apart && c.maps == blocks {
        fault = Fault::MapChecksum;
    }
    if fault == Fault::Length {
        (c.last, c.length) = (None, c.maps + 2 + r.below(3) as u32);
    }
    c.fault = Some(fault);
}

/// A sound checkpoint of each number among others, sound and broken, of the same and of other numbers. With `none`, none is
/// sound.
pub fn saved(xids: &[u64], none: bool, r: &mut Random) -> Ring {
    let blocks = r.pick(&[8, 12, 20, 40]);
    let (mut left, mut checkpoints) = (blocks, Vec::new());
    for (i, &xid) in xids.iter().enumerate() {
        let others = (xids.len() - 1 - i) as u32;
        let c = Checkpoint { current: true, ..checkpoint(xid, left - others, r) };
        left -= c.blocks();
        checkpoints.push(c);
    }
    while left > 0 && r.chance(7, 8) {
        let xid = r.pick(xids);
        let mut c = checkpoint(neighbour(xid, r), left, r);
        left -= c.blocks();
        c.current = r.chance(1, 4);
        if r.chance(1, 2) {
            break_one(&mut c, blocks, r);
        }
        checkpoints.push(c);
    }
    if none {
        checkpoints.iter_mut().filter(|c| c.fault.is_none()).for_each(|c| break_one(c, blocks, r));
    }
    r.shuffle(&mut checkpoints);
    Ring { blocks, start: r.below(u64::from(blocks)) as u32, checkpoints }
}

/// A ring full of sound checkpoints of one map each, the newest at the end.
pub fn full(xid: u64, blocks: u32) -> Ring {
    let pairs = u64::from(blocks / 2);
    let one = |i: u64| Checkpoint {
        xid: xid + 1 + i - pairs,
        maps: 1,
        last: Some(0),
        length: 2,
        apart: false,
        turns: 0,
        fault: None,
        current: i + 1 == pairs,
    };
    Ring { blocks, start: 0, checkpoints: (0..pairs).map(one).collect() }
}
