//! What desks ask for.

use oracle::nx::Container;
use sticks::contents::Contents;
use sticks::random::Random;

use crate::calls::call::Call;
use crate::calls::directory::{Directories, Rule};
use crate::calls::draw;
use crate::calls::lists::Lists;
use crate::desks::request::{self as what, Request};
use crate::marks;
use crate::opening::answer::caught;

/// Of a volume, so many calls of those that are drawn.
const CALLS: usize = 24;
const HEADS: usize = 2;
/// Buffers that some answers fit and others do not.
const ROOMS: [usize; 7] = [0, 14, 40, 64, 90, 300, 4096];
/// Of desks that there are none of; some are one in their low bits.
pub const NO_DESKS: [u64; 9] = [8, 9, 15, 255, 256, 1 << 32, 1 << 32 | 3, 1 << 63, u64::MAX];
const NO_CALLS: [u64; 7] = [17, 18, 255, 256, 1 << 32 | 3, 1 << 63, u64::MAX];
/// All but 0 name a checkpoint.
const NUMBERED: [u64; 5] = [1, 2, 256, 1 << 32, u64::MAX];

/// A request, and the length of its buffer.
pub struct Drawn {
    pub request: Request,
    pub room: usize,
}

pub fn room(r: &mut Random) -> usize {
    r.pick(&ROOMS)
}

fn drawn(call: &Call, r: &mut Random) -> Drawn {
    Drawn { request: Request::from(call), room: call.room().unwrap_or_else(|| room(r)) }
}

/// At a checkpoint, in one of the ways to name it.
pub fn at(request: Request, checkpoint: Option<u64>, volume: u64, r: &mut Random) -> Request {
    let (numbered, xid) = match checkpoint {
        Some(xid) => (r.pick(&NUMBERED), xid),
        None => (0, r.pick(&[0, 1, 100_000, u64::MAX])),
    };
    let request = Request { numbered, xid, volume, ..request };
    if r.chance(1, 2) {
        request
    } else {
        strewn(request, r)
    }
}

/// Numbers and bytes that the call does not look at may be any.
fn strewn(mut request: Request, r: &mut Random) -> Request {
    let (numbers, path) = match request.what {
        what::LOOKUP | what::MARKED => (0, true),
        what::LINK => (1, false),
        what::READ..=what::ENTRIES if request.what != what::LIST => (2, false),
        what::MARK | what::REPLACED => (3, false),
        _ => (0, false),
    };
    let unused = [&mut request.a, &mut request.b, &mut request.c].into_iter().skip(numbers);
    unused.for_each(|n| *n = r.pick(&[1, 2, 255, r.clone().draw(), u64::MAX]));
    if !path {
        request.path = r.bytes(5);
    }
    if request.what == what::MARK {
        // Of a kind its low byte is looked at.
        request.c |= r.draw() << 8;
    }
    request
}

/// One call of each, for a volume that may not open.
pub fn each(r: &mut Random) -> Vec<Drawn> {
    let mut calls = [draw::each(r), marks::draw::each(r)].concat();
    let names = draw::each_name(r);
    calls.push(r.pick(&names));
    let whole = [what::OPEN, what::LIST, what::MEASURE, what::CHECKPOINTS, what::PART, r.pick(&NO_CALLS)];
    let mut out: Vec<Drawn> = calls.iter().map(|call| drawn(call, r)).collect();
    out.extend(whole.map(|what| Drawn { request: Request::of(what), room: room(r) }));
    out
}

/// Calls on a volume that is opened, by its plan and by what the oracle's lists hold.
pub fn volume(part: &[u8], c: &Container, i: u64, plan: &Contents, r: &mut Random) -> Option<Vec<Drawn>> {
    let v = caught(|| c.volume(i as usize)).ok()?.ok()?;
    let dirs = Directories::of(&v, Rule::Kind);
    let mut calls = draw::lookups(plan, r);
    for id in draw::ids(plan, r) {
        let lists = Lists::of(&dirs, id);
        calls.extend(draw::on(&lists, id, c.block_size().into(), r));
        calls.extend(draw::in_one_call(&lists, id, r));
        calls.push(draw::name(&lists, id, r));
    }
    r.shuffle(&mut calls);
    calls.truncate(CALLS);
    let mut heads: Vec<_> = marks::walk::survey(part, c, &v).heads.into_iter().collect();
    let absent = marks::draw::absent(&heads, r);
    r.shuffle(&mut heads);
    for (id, kind) in heads.into_iter().take(HEADS).chain(absent.into_iter().take(1)) {
        let place = r.pick(&[0, 1, 2, 5, 1000, u64::MAX]);
        calls.push(Call::Mark { id, kind, place });
    }
    calls.extend(draw::each_name(r).into_iter().take(1));
    Some(calls.iter().map(|call| drawn(call, r)).collect())
}
