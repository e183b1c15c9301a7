//! "Opening, in order".

use sticks::block::{get16, put16, put32, put64};
use sticks::checkpoint::Fault;
use sticks::plan::Odd;
use sticks::{make, Plan};

use super::stick::{
    changed, contents, cut, empty, file, plan, unsealed, with_zero, BLOCK, CHECKPOINT, MAP_ROOT, OBJECT_MAP, ROOT,
    SUPERBLOCK,
};
use super::Said::{Answered, Refused, Text};
use super::{group, Group, Said, Stated, ROOM};

const SIZE: usize = 36;
const RING: usize = 104;
const RING_BASE: usize = 112;
const TREE_BIT: u32 = 0x8000_0000;

fn opened(image: Vec<u8>, said: Said) -> (Vec<u8>, Vec<Stated>) {
    (image, vec![Stated::open(said)])
}

fn with(change: impl Fn(&mut Plan)) -> Vec<u8> {
    let mut plan = plan(contents(vec![file(ROOT)]));
    change(&mut plan);
    make(plan).image
}

/// Block 0, a ring of one block, the object map and its tree.
fn of_size(block_size: usize) -> Vec<u8> {
    with(|p| {
        p.block_size = block_size;
        p.volumes.clear();
        p.slots.clear();
        p.ring.blocks = 1;
        p.ring.checkpoints.drain(..3);
        let c = &mut p.ring.checkpoints[0];
        (c.maps, c.last, c.length) = (0, None, 1);
    })
}

fn text(image: &[u8], xid: u64, volumes: &str) -> Said {
    Text(format!("(container 4096 {} {xid}{volumes})\n", image.len() / BLOCK))
}

pub fn groups() -> Vec<Group> {
    vec![start(), sizes(), area(), candidates(), spoiled(), maps(), features(), object_maps(), slots(), buffers()]
}

fn start() -> Group {
    let no_magic = with_zero(&empty(), |b| put32(b, 32, 0));
    let neither = with_zero(&no_magic, |b| put32(b, SIZE, 512));
    let cases = vec![
        opened(Vec::new(), Refused(1)),
        opened(cut(&empty(), 4095), Refused(1)),
        opened(cut(&no_magic, 4095), Refused(1)),
        opened(cut(&no_magic, 4096), Refused(11)),
        opened(no_magic, Refused(11)),
        opened(neither, Refused(11)),
    ];
    group("the first 4,096 bytes, then NXSB", cases)
}

fn sizes() -> Group {
    let sized = |n: u32| with_zero(&empty(), |b| put32(b, SIZE, n));
    let tree = with_zero(&sized(8192), |b| put32(b, RING, TREE_BIT));
    let refused = [0, 1, 2048, 4095, 4097, 6144, 12_288, 65_537, 131_072, u32::MAX];
    let mut cases: Vec<_> = refused.into_iter().map(|n| opened(sized(n), Refused(2))).collect();
    cases.extend([8192, 65_536].map(|n| opened(of_size(n), Answered)));
    cases.extend([
        opened(empty(), Answered),
        opened(cut(&sized(12_288), 4096), Refused(2)),
        opened(cut(&sized(8192), 4096), Refused(1)),
        opened(cut(&sized(8192), 8191), Refused(1)),
        opened(cut(&tree, 8191), Refused(1)),
        opened(cut(&tree, 8192), Refused(3)),
    ]);
    group("block sizes, then the rest of block 0", cases)
}

fn area() -> Group {
    let whole = empty();
    let blocks = (whole.len() / BLOCK) as u64;
    let ring = |n: u32, base: u64| {
        with_zero(&whole, |b| {
            put32(b, RING, n);
            put64(b, RING_BASE, base);
        })
    };
    let cases = vec![
        opened(ring(TREE_BIT, 1), Refused(3)),
        opened(ring(TREE_BIT | 8, 1 << 52), Refused(3)),
        opened(ring(8, 1 << 52), Refused(8)),
        opened(ring(8, u64::MAX), Refused(8)),
        opened(ring(0, 1 << 52), Refused(8)),
        opened(ring(8, (1 << 52) - 1), Refused(1)),
        opened(ring(8, blocks - 7), Refused(1)),
        opened(ring(0, blocks + 1), Refused(1)),
        opened(ring(0, blocks), Refused(2)),
        opened(ring(0, 1), Refused(2)),
    ];
    group("descriptor-tree bit, area's address, a ring of 0", cases)
}

/// Errors that a port invites among them.
fn candidates() -> Group {
    let whole = empty();
    let equal = with(|p| {
        let xid = p.ring.checkpoints[3].xid;
        p.ring.checkpoints[0].xid = xid;
        p.ring.checkpoints[0].current = true;
        p.ring.checkpoints[3].current = false;
    });
    let usual = || text(&whole, 100_000, " 1026");
    let cases = vec![
        opened(with_zero(&whole, |b| b[0] ^= 1), usual()),
        opened(with_zero(&whole, |b| put64(b, 16, u64::MAX)), usual()),
        opened(changed(&whole, SUPERBLOCK, |b| put32(b, RING, 1)), usual()),
        opened(equal.clone(), text(&equal, 100_000, " 1026")),
        opened(changed(&whole, SUPERBLOCK, |b| put32(b, 24, 2)), Refused(2)),
        opened(changed(&whole, SUPERBLOCK, |b| put32(b, 24, 0xffff_0001)), usual()),
        opened(changed(&whole, SUPERBLOCK, |b| put32(b, 32, 0)), Refused(2)),
        opened(changed(&whole, SUPERBLOCK, |b| put64(b, RING_BASE, u64::MAX)), Refused(2)),
    ];
    group("block 0's checksum, the ring, equal transaction numbers", cases)
}

/// The newest checkpoint is spoiled, and the one before it taken.
fn spoiled() -> Group {
    let faults = [
        Fault::Checksum,
        Fault::Magic,
        Fault::Kind,
        Fault::MapChecksum,
        Fault::MapKind,
        Fault::MapXid,
        Fault::MapCount,
        Fault::Length,
        Fault::Address,
    ];
    let one = |fault: Fault| {
        let image = with(|p| {
            let c = &mut p.ring.checkpoints;
            c[2].current = true;
            c[3].current = false;
            c[3].fault = Some(fault);
            if fault == Fault::Length {
                (c[3].last, c[3].length) = (None, 3);
            }
        });
        let said = text(&image, 99_999, " 1026");
        opened(image, said)
    };
    group("a checkpoint that is not accepted", faults.into_iter().map(one).collect())
}

fn maps() -> Group {
    let whole = empty();
    let usual = || text(&whole, 100_000, " 1026");
    let count = |n: u32| changed(&whole, CHECKPOINT, |b| put32(b, 36, n));
    let length = |n: u32| changed(&whole, SUPERBLOCK, |b| put32(b, 140, n));
    let unmarked = |b: &[u8], n: u32| {
        let b = changed(b, CHECKPOINT, |b| put32(b, 32, 0));
        changed(&b, SUPERBLOCK, |b| put32(b, 140, n))
    };
    // An index counted three times round the ring, and maps at a base of their own.
    let [round, apart] = [false, true].map(|apart| {
        with(|p| {
            let c = &mut p.ring.checkpoints[3];
            (c.apart, c.turns) = (apart, 3);
        })
    });
    let cases = vec![
        opened(round.clone(), text(&round, 100_000, " 1026")),
        opened(apart.clone(), text(&apart, 100_000, " 1026")),
        opened(count(101), usual()),
        opened(count(102), Refused(2)),
        opened(length(u32::MAX), usual()),
        opened(length(1), usual()),
        opened(length(0), usual()),
        opened(unmarked(&whole, 2), usual()),
        opened(unmarked(&whole, 3), Refused(2)),
        opened(unmarked(&count(102), 1), usual()),
    ];
    group("a checkpoint's maps", cases)
}

fn features() -> Group {
    let odd = |odd: Odd| with(|p| p.odd = Some(odd));
    let whole = empty();
    let both = changed(&odd(Odd::Version1), SUPERBLOCK, |b| put64(b, 160, 0));
    let cases = vec![
        opened(odd(Odd::Version1), Refused(3)),
        opened(odd(Odd::Fusion), Refused(3)),
        opened(both, Refused(3)),
        opened(odd(Odd::MapOutside), Refused(2)),
        opened(changed(&whole, SUPERBLOCK, |b| put64(b, 160, 0)), Refused(2)),
        opened(changed(&whole, OBJECT_MAP, |b| put32(b, 24, 0x4000_000c)), Refused(2)),
        opened(changed(&whole, OBJECT_MAP, |b| put64(b, 48, 0)), Refused(2)),
        opened(cut(&whole, whole.len() - BLOCK), Refused(1)),
    ];
    group("version 1, Fusion, then the object map", cases)
}

fn object_maps() -> Group {
    let whole = empty();
    let usual = || text(&whole, 100_000, " 1026");
    let root = |change: fn(&mut [u8])| changed(&whole, MAP_ROOT, change);
    let info = BLOCK - 40;
    let sized = |at: usize, n: u32| changed(&whole, MAP_ROOT, |b| put32(b, info + at, n));
    let cases = vec![
        opened(unsealed(&whole, OBJECT_MAP), Refused(2)),
        opened(unsealed(&whole, MAP_ROOT), Refused(2)),
        opened(changed(&whole, OBJECT_MAP, |b| put32(b, 40, 0x4000_0003)), usual()),
        opened(changed(&whole, OBJECT_MAP, |b| put32(b, 40, 2)), Refused(3)),
        opened(root(|b| put16(b, 32, get16(b, 32) | 8)), Refused(3)),
        opened(root(|b| put32(b, 32, u32::from(get16(b, 32)) | 8 | 33 << 16)), Refused(3)),
        opened(root(|b| put16(b, 32, get16(b, 32) & !1)), Refused(2)),
        opened(root(|b| put16(b, 34, 32)), usual()),
        opened(root(|b| put16(b, 34, 33)), Refused(2)),
        opened(root(|b| put16(b, 42, 4000)), usual()),
        opened(root(|b| put16(b, 42, 4001)), Refused(2)),
        opened(sized(0, 0), Refused(2)),
        opened(sized(8, 15), Refused(2)),
        opened(sized(12, 17), Refused(2)),
    ];
    group("an object map and its root", cases)
}

fn slots() -> Group {
    let slotted = |max: u32, slots: Vec<u64>| {
        with(|p| {
            p.slots.clone_from(&slots);
            p.max_file_systems = max;
        })
    };
    let one = |max: u32, slots: Vec<u64>, volumes: &str| {
        let image = slotted(max, slots);
        let said = text(&image, 100_000, volumes);
        opened(image, said)
    };
    let hundred: Vec<u64> = (1..=100).collect();
    let words: String = hundred.iter().map(|n| format!(" {n}")).collect();
    let cases = vec![
        one(100, vec![0, 9, 0, 0, 7, 9, 1026], " 9 7 9 1026"),
        one(4, vec![0, 9, 0, 0, 7], " 9"),
        one(0, vec![9], ""),
        one(5000, hundred.clone(), &words),
        one(101, hundred, &words),
    ];
    group("volume slots", cases)
}

fn buffers() -> Group {
    let whole = empty();
    let text = format!("(container 4096 {} 100000 1026)\n", whole.len() / BLOCK);
    let n = text.len();
    let into = |room: usize, said: Said| Stated::open(said).into_room(room);
    let cases = vec![
        into(0, Refused(6)),
        into(n - 1, Refused(6)),
        into(n, Text(text.clone())),
        into(n + 1, Text(text.clone())),
        into(ROOM, Text(text)),
    ];
    group("a container's line into buffers", vec![(whole, cases)])
}
