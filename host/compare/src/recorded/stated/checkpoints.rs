//! Request 04: the numbers of the checkpoints, opening by one of them, and what is read then.

use sticks::block::{put32, put64};
use sticks::checkpoint::Fault;
use sticks::plan::{Odd, Save};
use sticks::volume::Volume;
use sticks::{make, Plan};

use super::stick::{
    changed, contents, cut, directory, empty, file, plan, sized, stored, with_zero, BLOCK, FILE, ROOT, SUPERBLOCK,
};
use super::Said::{Answered, Bytes, Refused, Text};
use super::{group, Group, Said, Stated, ROOM};
use crate::calls::call::Call;

/// The numbers of a stick's four checkpoints, from the first block of the ring on.
const FIRST: u64 = 99_997;
const LATEST: u64 = 100_000;
const RING: usize = 104;
const RING_BASE: usize = 112;

pub fn groups() -> Vec<Group> {
    vec![lists(), buffers(), numbers(), equals(), places(), states()]
}

fn with(change: impl Fn(&mut Plan)) -> Vec<u8> {
    let mut plan = plan(contents(vec![file(ROOT)]));
    change(&mut plan);
    make(plan).image
}

fn listed(numbers: &[u64]) -> Said {
    Bytes(numbers.iter().flat_map(|n| n.to_le_bytes()).collect())
}

fn list(image: Vec<u8>, said: Said) -> (Vec<u8>, Vec<Stated>) {
    (image, vec![Stated::checkpoints(said)])
}

fn open_at(xid: u64, said: Said) -> Stated {
    Stated::open(said).at(xid)
}

/// Numbers in ring order.
fn numbered(xids: [u64; 4]) -> Vec<u8> {
    with(|p| p.ring.checkpoints.iter_mut().zip(xids).for_each(|(c, xid)| c.xid = xid))
}

fn lists() -> Group {
    let unsound = |fault: Fault| with(|p| p.ring.checkpoints[1].fault = Some(fault));
    let three = || listed(&[LATEST, LATEST - 1, FIRST]);
    let faults = [Fault::Checksum, Fault::Magic, Fault::Kind, Fault::MapChecksum, Fault::MapXid, Fault::Address];
    let mut cases: Vec<_> = faults.into_iter().map(|fault| list(unsound(fault), three())).collect();
    let odd = |odd: Odd| with(|p| p.odd = Some(odd));
    let all = || listed(&[LATEST, LATEST - 1, LATEST - 2, FIRST]);
    cases.extend([
        list(empty(), all()),
        list(numbered([5, 7, 6, 8]), listed(&[8, 7, 6, 5])),
        list(numbered([8, 7, 6, 5]), listed(&[8, 7, 6, 5])),
        list(numbered([7, 9, 7, 7]), listed(&[9, 7, 7, 7])),
        list(numbered([0, u64::MAX, 0, u64::MAX]), listed(&[u64::MAX, u64::MAX, 0, 0])),
        list(odd(Odd::Version1), all()),
        list(odd(Odd::Fusion), all()),
        list(odd(Odd::MapOutside), all()),
        list(with(|p| p.ring.checkpoints.iter_mut().for_each(|c| c.fault = Some(Fault::MapKind))), Refused(2)),
    ]);
    group("the numbers of the checkpoints", cases)
}

fn buffers() -> Group {
    let all = || listed(&[LATEST, LATEST - 1, LATEST - 2, FIRST]);
    let into = |room: usize, said: Said| Stated::checkpoints(said).into_room(room);
    let cases = vec![
        into(0, Refused(6)),
        into(31, Refused(6)),
        into(32, all()),
        into(33, all()),
        into(63, all()),
        into(64, all()),
        into(65, all()),
    ];
    let none = with(|p| p.ring.checkpoints.iter_mut().for_each(|c| c.fault = Some(Fault::Checksum)));
    let empty_ring = with_zero(&empty(), |b| put32(b, RING, 0));
    let refused = |image: Vec<u8>, n: u64| (image, vec![into(0, Refused(n)), into(ROOM, Refused(n))]);
    group("their list into buffers", vec![(empty(), cases), refused(none, 2), refused(empty_ring, 2)])
}

fn text(image: &[u8], xid: u64, volumes: &str) -> Said {
    Text(format!("(container 4096 {} {xid}{volumes})\n", image.len() / BLOCK))
}

/// Every checkpoint has the plan's slots and object map.
fn alike() -> Vec<u8> {
    with(|p| p.ring.checkpoints.iter_mut().for_each(|c| c.current = true))
}

fn numbers() -> Group {
    let whole = alike();
    let opened = |xid: u64| open_at(xid, text(&whole, xid, " 1026"));
    let none = |xid: u64| open_at(xid, Refused(13));
    let mut cases: Vec<Stated> = (FIRST..=LATEST).map(opened).collect();
    cases.extend([FIRST - 1, LATEST + 1, LATEST + (1 << 32), 0, u64::MAX].map(none));
    let length = format!("(container 4096 {} {FIRST} 1026)\n", whole.len() / BLOCK).len();
    cases.extend([0, length - 1].map(|room| open_at(FIRST, Refused(6)).into_room(room)));
    cases.push(none(0).into_room(0));
    let ends = with(|p| {
        p.ring.checkpoints.iter_mut().for_each(|c| c.current = true);
        (p.ring.checkpoints[0].xid, p.ring.checkpoints[1].xid) = (u64::MAX, 0);
    });
    let at_ends = [0, u64::MAX, LATEST].map(|xid| open_at(xid, Answered)).into();
    group("opening by number", vec![(whole, cases), (ends, at_ends)])
}

/// The third and the fourth checkpoint have one number, and so have the first two. The slots of the second and the fourth
/// lead elsewhere, unless the one before is spoiled.
fn pairs(spoiled: Option<usize>) -> Vec<u8> {
    with(|p| {
        for (i, c) in p.ring.checkpoints.iter_mut().enumerate() {
            (c.xid, c.current) = (7 + i as u64 / 2, i % 2 == 0 || spoiled == Some(i - 1));
            c.fault = (spoiled == Some(i)).then_some(Fault::MapCount);
        }
    })
}

fn equals() -> Group {
    let sound = pairs(None);
    let opened = |image: &[u8], xid: u64| open_at(xid, text(image, xid, " 1026"));
    let both = vec![opened(&sound, 7), opened(&sound, 8), Stated::checkpoints(listed(&[8, 8, 7, 7]))];
    let spoiled = |i: usize| {
        let image = pairs(Some(i));
        let numbers = if i < 2 { [8, 8, 7] } else { [8, 7, 7] };
        let cases = vec![opened(&image, 7), opened(&image, 8), Stated::checkpoints(listed(&numbers))];
        (image, cases)
    };
    let mut cases = vec![(sound, both)];
    cases.extend((0..4).map(spoiled));
    cases.extend([Fault::Checksum, Fault::MapXid].map(|fault| {
        let only = with(|p| p.ring.checkpoints[0].fault = Some(fault));
        (only, vec![open_at(FIRST, Refused(13)), open_at(LATEST, Answered)])
    }));
    group("the earliest of equal numbers that is accepted", cases)
}

/// "in the place of the 2 for no candidate": after the area's tests, before version, Fusion and the object map.
fn places() -> Group {
    let whole = alike();
    let both = |image: Vec<u8>, n: u64| (image, vec![Stated::checkpoints(Refused(n)), open_at(LATEST, Refused(n))]);
    let zero = |at: usize, n: u64| with_zero(&whole, |b| put64(b, at, n));
    let ring = |n: u32| with_zero(&whole, |b| put32(b, RING, n));
    let later = |change: fn(&mut [u8]), n: u64| {
        let image = changed(&whole, SUPERBLOCK, change);
        (image, vec![open_at(LATEST, Refused(n)), open_at(LATEST + 1, Refused(13))])
    };
    let none = with(|p| p.ring.checkpoints.iter_mut().for_each(|c| c.fault = Some(Fault::Checksum)));
    let cases = vec![
        both(cut(&whole, 4095), 1),
        both(with_zero(&whole, |b| put32(b, 32, 0)), 11),
        both(with_zero(&whole, |b| put32(b, 36, 512)), 2),
        both(cut(&with_zero(&whole, |b| put32(b, 36, 8192)), 4096), 1),
        both(ring(0x8000_0008), 3),
        both(zero(RING_BASE, 1 << 52), 8),
        both(zero(RING_BASE, 1 << 40), 1),
        (ring(0), vec![open_at(LATEST, Refused(13)), Stated::open(Refused(2))]),
        (none, vec![open_at(LATEST, Refused(13)), Stated::open(Refused(2))]),
        later(|b| put64(b, 64, 0x1), 3),
        later(|b| put64(b, 64, 0x100), 3),
        later(|b| put64(b, 160, 0), 2),
    ];
    group("refusals of a number and of the list, in their places", cases)
}

/// At 99,998 an empty root; at 99,999 "data" in it; at 100,000 the same with other bytes.
fn saved() -> Vec<u8> {
    let of = |bytes: &[u8]| sized(bytes.len() as u64, vec![stored(0, bytes)]);
    let mut plan = plan(of(b"later"));
    let volume = |c| Volume { contents: c, ..plan.volumes[0].clone() };
    plan.saves = vec![
        Save { xid: LATEST - 2, volumes: vec![volume(contents(vec![directory(ROOT, &[])]))] },
        Save { xid: LATEST - 1, volumes: vec![volume(of(b"earlier, and longer"))] },
    ];
    plan.ring.checkpoints[1..].iter_mut().for_each(|c| c.current = true);
    make(plan).image
}

fn states() -> Group {
    let read = |xid: u64, said: Said| Stated::call(Call::Read { id: FILE, offset: 0, length: 64 }, said).at(xid);
    let lookup = |xid: u64, said: Said| Stated::lookup("data", said).at(xid);
    let list = |xid: u64, said: Said| Stated::list(ROOM, said).at(xid);
    let absent = LATEST + 1;
    let cases = vec![
        read(LATEST, Bytes(b"later".to_vec())),
        read(LATEST - 1, Bytes(b"earlier, and longer".to_vec())),
        read(LATEST - 2, Refused(4)),
        read(absent, Refused(13)),
        lookup(LATEST, Answered),
        lookup(LATEST - 1, Answered),
        lookup(LATEST - 1, Refused(6)).into_room(20),
        lookup(LATEST - 2, Refused(4)),
        lookup(absent, Refused(13)),
        list(LATEST, Answered),
        list(LATEST - 1, Answered),
        list(LATEST - 2, Answered),
        list(LATEST - 1, Refused(6)).into_room(100),
        list(absent, Refused(13)),
        Stated::list(ROOM, Answered),
    ];
    let unmapped = changed(&saved(), SUPERBLOCK, |b| put64(b, 160, 0));
    let refused = vec![lookup(LATEST - 1, Refused(2)), list(LATEST - 1, Refused(2))];
    group("what a stick held at earlier saves", vec![(saved(), cases), (unmapped, refused)])
}
