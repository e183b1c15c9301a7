//! The port itself.

use crate::calls::port_of;
use crate::desks::request::{self as what, Request};
use crate::desks::{Counts, Ports};
use crate::port::calls::{self, Which};
use crate::port::desks::{Asked, DeskCounts, Dock};
use crate::port::{checkpoints, open, open_at, part, wrong_words};

pub const PORTS: Ports<'static> = Ports { desk: &desk, plain: &plain };

/// By the name of the call where its checkpoint is named in the usual way, else by its numbers.
fn desk(counts: &mut Counts, desk: u64, r: &Request, image: &[u8], out: &mut [u8]) -> i64 {
    let mut dock = Dock::from(DeskCounts { counts: *counts });
    let usual = (r.numbered == 1 || (r.numbered, r.xid) == (0, 0)) && r.c <= 0xff;
    let named = if usual { by_name(&mut dock, desk, r, image, out) } else { None };
    let result = named.unwrap_or_else(|| dock.call(desk, image, asked(r), out));
    *counts = dock.counts();
    result
}

fn asked(r: &Request) -> Asked<'_> {
    let Request { what, numbered, xid, volume, a, b, c, .. } = *r;
    Asked { what, numbered, xid, volume, a, b, c, path: &r.path }
}

fn which(r: &Request) -> Which {
    Which { checkpoint: r.checkpoint(), volume: r.volume }
}

/// None where no call has the number.
fn by_name(dock: &mut Dock, desk: u64, r: &Request, image: &[u8], out: &mut [u8]) -> Option<i64> {
    let (w, checkpoint, a, b) = (which(r), r.checkpoint(), r.a, r.b);
    Some(match r.what {
        what::OPEN => dock.open(desk, image, checkpoint, out),
        what::LOOKUP => dock.lookup(desk, image, w, &r.path, out),
        what::READ => dock.read(desk, image, w, a, b, out),
        what::LIST => dock.list(desk, image, w, out),
        what::ENTRY => dock.entry(desk, image, w, a, b, out),
        what::XATTR => dock.xattr(desk, image, w, a, b, out),
        what::LINK => dock.link(desk, image, w, a, out),
        what::EXTENT => dock.extent(desk, image, w, a, b, out),
        what::XATTR_BYTES => dock.xattr_bytes(desk, image, w, a, b, out),
        what::ENTRIES => dock.entries(desk, image, w, a, b, out),
        what::MEASURE => dock.measure(desk, image, w, out),
        what::MARK => dock.mark(desk, image, w, a, r.c as u8, b, out),
        what::MARKED => dock.marked(desk, image, checkpoint, &r.path, out),
        what::REPLACED => dock.replaced(desk, image, w, r.c, a, b, out),
        what::CHECKPOINTS => dock.checkpoints(desk, image, out),
        what::PART => dock.part(desk, image, out),
        what::WRONG_WORDS => dock.wrong_words(desk, image, out),
        _ => return None,
    })
}

fn plain(r: &Request, image: &[u8], out: &mut [u8]) -> i64 {
    match r.what {
        what::OPEN => match r.checkpoint() {
            Some(xid) => open_at(image, xid, out),
            None => open(image, out),
        },
        what::LIST => calls::list(image, which(r), out),
        what::MEASURE => calls::measure(image, which(r), out),
        what::CHECKPOINTS => checkpoints(image, out),
        what::PART => part(image, out),
        what::WRONG_WORDS => wrong_words(image, out),
        _ => match r.call(out.len()) {
            Some(call) => port_of(image, which(r), &call, out),
            None => unreachable!("{r} is no call"),
        },
    }
}
