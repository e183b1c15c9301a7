//! A port's calls on a volume, with one mistake or none.

mod files;
pub mod list;
pub mod marks;
pub mod measure;
pub mod mistake;
mod names;
mod paths;
mod records;
mod totals;
mod tree;

use std::cell::RefCell;
use std::sync::Arc;

use compare::calls::call::Call;
use compare::calls::line::hex;
use compare::image::Image;
use compare::opening::answer::{self, caught};
use compare::opening::outside::outside;
use mistake::Mistake;
use oracle::error::Error;
use oracle::fs::Volume;
use oracle::nx::Container;
use oracle::probe;
use Mistake as M;

/// A value, or the refusal's number.
pub type Answer<T> = Result<T, i64>;

pub fn test(good: bool, refusal: i64) -> Answer<()> {
    if good {
        Ok(())
    } else {
        Err(refusal)
    }
}

pub fn class(e: Error) -> i64 {
    probe::class(&e) as i64
}

pub struct Stand<'a> {
    pub part: &'a [u8],
    pub c: &'a Container,
    pub v: &'a Volume<'a>,
    pub m: Mistake,
}

impl Stand<'_> {
    pub fn has(&self, m: Mistake) -> bool {
        self.m == m
    }

    pub fn hex(&self, b: &[u8]) -> String {
        let text = hex(b);
        if self.has(M::UpperHex) {
            text.to_uppercase()
        } else {
            text
        }
    }

    fn bytes(&self, call: &Call, out: &[u8]) -> Answer<Vec<u8>> {
        match call {
            Call::Lookup { path } => self.lookup(path),
            Call::Read { id, offset, .. } => self.read(*id, *offset, out),
            Call::Entry { id, place } => self.entry(*id, *place),
            Call::Entries { id, place, .. } => self.entries_from(*id, *place, out.len()),
            Call::Xattr { id, place } => self.xattr(*id, *place),
            Call::XattrBytes { id, place } => self.xattr_bytes(*id, *place, out.len()),
            Call::Link { id } => self.link(*id),
            Call::Extent { id, place } => self.extent(*id, *place),
            Call::Replaced { kind, id, place } => self.replaced(*kind, *id, *place),
            Call::Mark { .. } | Call::Marked { .. } => unreachable!("they have a stand-in of their own"),
        }
    }
}

/// An image's part, and the container in it.
pub struct Opened {
    pub part: Arc<Vec<u8>>,
    pub c: Container,
}

/// The last image's address and length, and its container, as many calls follow on one image. A run
/// has no two in a row at one address.
pub type Last = RefCell<Option<(*const u8, usize, Answer<Opened>)>>;

pub fn open(image: &[u8]) -> Answer<Opened> {
    let part = Image::of(image.to_vec()).part.map_err(|n| n as i64)?;
    let c = if outside(&part).is_some() { Ok(Err(1)) } else { caught(|| answer::container(&part).map_err(class)) };
    c.unwrap_or(Err(8)).map(|c| Opened { part, c })
}

fn bytes(opened: &Answer<Opened>, volume: u64, call: &Call, out: &[u8], m: Mistake) -> Answer<Vec<u8>> {
    let Opened { part, c } = opened.as_ref().map_err(|n| *n)?;
    let overflow = if m == M::OverflowAsCorrupt { 2 } else { 8 };
    caught(|| {
        let v = c.volume(volume as usize).map_err(class)?;
        Stand { part, c, v: &v, m }.bytes(call, out)
    })
    .unwrap_or(Err(overflow))
}

pub fn answer(last: &Last, image: &[u8], volume: u64, call: &Call, out: &mut [u8], m: Mistake) -> i64 {
    if let (M::FiveFirst, Call::Lookup { path }) = (m, call) {
        if std::str::from_utf8(path).is_err() {
            return -5;
        }
    }
    if matches!((m, call), (M::KindFirst, Call::Replaced { kind, .. }) if *kind > 4) {
        return -4;
    }
    let found = with_opened(last, image, |opened| bytes(opened, volume, call, out, m));
    finish(found, matches!(call, Call::Read { .. }), out, m)
}

/// Opens the image, unless it is the last.
fn with_opened<T>(last: &Last, image: &[u8], f: impl FnOnce(&Answer<Opened>) -> T) -> T {
    let of = (image.as_ptr(), image.len());
    let mut last = last.borrow_mut();
    let opened = match last.take() {
        Some((at, n, c)) if (at, n) == of => c,
        _ => open(image),
    };
    let out = f(&opened);
    *last = Some((of.0, of.1, opened));
    out
}

fn finish(found: Answer<Vec<u8>>, read: bool, out: &mut [u8], m: Mistake) -> i64 {
    let short = |n: usize| !read && n + usize::from(m == M::ShortByOne && n > 0) > out.len();
    match found {
        Err(_) if m == M::ShortFirst && out.is_empty() && !read => -6,
        Err(n) => {
            if m == M::Wiped {
                out.fill(0);
            }
            -n
        }
        Ok(b) if short(b.len()) => -6,
        Ok(b) => {
            let n = b.len();
            out[..n].copy_from_slice(&b);
            if (m == M::OnePast && out.len() > n) || (m == M::ZeroedPast && read) {
                out[n..].fill(0);
            }
            n as i64
        }
    }
}
