//! Request 06: a dock's eight counts, desks that there are not, and calls that there are not.

use super::nodes::{rounds_image, OPENED, ROOT_INODE};
use super::Said::{Answered, Refused};
use super::{group, Group, Stated};
use crate::desks::request::{self as what, Request};

/// Of a lookup of the root.
const ROOT: u64 = OPENED + ROOT_INODE;
const MOST: u64 = u64::MAX;

pub fn groups() -> Vec<Group> {
    vec![desks(), sums(), no_nodes(), no_calls()]
}

fn root(desk: u64, from: u64) -> Stated {
    Stated::desk(desk, Request::of(what::LOOKUP), from, ROOT, Answered)
}

/// "A desk number above 7 changes no count and the answer is the usual one".
fn desks() -> Group {
    let mut cases: Vec<Stated> = [0, 7, 8, 255, 256, 1 << 32, MOST].map(|desk| root(desk, 1000)).into();
    cases.push(Stated::desk(8, Request { volume: 1, ..Request::of(what::LIST) }, 0, 1, Refused(4)));
    group("desks of a dock, and others", vec![(rounds_image(), cases)])
}

/// "At 2^64 − 1 a count stays".
fn sums() -> Group {
    let from = [MOST - ROOT, MOST - ROOT + 1, MOST - 2, MOST];
    let mut cases: Vec<Stated> = from.map(|from| root(3, from)).into();
    cases.push(Stated::desk(0, Request { volume: 1, ..Request::of(what::LIST) }, MOST - 1, 1, Refused(4)));
    group("counts up to 2^64 - 1", vec![(rounds_image(), cases)])
}

/// Those that go through no node.
fn no_nodes() -> Group {
    let of = |what: u64| Stated::desk(what % 8, Request::of(what), 7, 0, Answered);
    let mut object = vec![0; 64];
    object[8] = 1;
    let cases = vec![
        (rounds_image(), vec![of(what::CHECKPOINTS), of(what::PART), of(what::PART).into_room(3).refused(6)]),
        (object, vec![of(what::WRONG_WORDS), of(what::CHECKPOINTS).refused(1)]),
    ];
    group("calls without nodes", cases)
}

/// Refused with 4, the buffer as it was, and nothing is counted.
fn no_calls() -> Group {
    let none = [17, 259, 1 << 32, MOST];
    let cases = none.map(|what| Stated::desk(2, Request::of(what), 9, 0, Refused(4)));
    let at = Request { numbered: 1, xid: MOST, volume: MOST, ..Request::of(17) };
    let cases = cases.into_iter().chain([Stated::desk(2, at, 9, 0, Refused(4)).into_room(0)]);
    group("numbers of no call", vec![(rounds_image(), cases.collect())])
}
