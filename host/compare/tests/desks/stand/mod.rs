//! A dock's desks, with one slip or none. What a call answers is that of the call by itself.

mod call;
mod counted;
mod list;
mod slip;
mod source;
mod volume;

use std::cell::RefCell;

use compare::desks::request::{self as what, Request, NO_CALL};
use compare::desks::{Counts, Plain};
use compare::image::Image;

use counted::counted;
pub use slip::{Slip, ALL};
use source::Source;
use Slip as S;

const TOO_SHORT: i64 = -6;

pub struct Stand<'p> {
    pub slip: Slip,
    pub plain: Plain<'p>,
    /// The last image, as many calls follow on one.
    last: RefCell<Option<(Vec<u8>, Option<Source>)>>,
}

impl<'p> Stand<'p> {
    pub fn with(slip: Slip, plain: Plain<'p>) -> Stand<'p> {
        Stand { slip, plain, last: RefCell::default() }
    }

    fn has(&self, slip: Slip) -> bool {
        self.slip == slip
    }

    /// What is taken to be asked for.
    fn request(&self, r: &Request) -> Request {
        let mut r = r.clone();
        match self.slip {
            S::CallOfOneByte => r.what &= 0xff,
            S::NoCallIsOpen if r.name() == NO_CALL => r.what = what::OPEN,
            S::NumberedByOne if r.numbered != 1 => r.numbered = 0,
            S::NumberLookedAt if r.xid != 0 => r.numbered = 1,
            _ => {}
        }
        r
    }

    pub fn desk(&self, counts: &mut Counts, desk: u64, r: &Request, image: &[u8], out: &mut [u8]) -> i64 {
        let r = self.request(r);
        match self.slip {
            S::DeskAboveRefused if desk > 7 => return -4,
            S::DeskAboveNotAsked if desk > 7 => return 0,
            S::NoCallWipes if r.name() == NO_CALL => out.fill(0),
            _ => {}
        }
        let nodes = self.nodes(&r, image, out.len());
        let result = if r.name() == NO_CALL { -4 } else { (self.plain)(&r, image, out) };
        let dropped = match self.slip {
            S::ShortDropped => result == TOO_SHORT && r.what != what::LIST,
            _ => false,
        };
        self.add(counts, desk, if dropped { 0 } else { nodes });
        result
    }

    fn add(&self, counts: &mut Counts, desk: u64, nodes: u64) {
        let desk = match self.slip {
            S::DeskModulo8 => desk % 8,
            S::DeskOfOneByte => desk & 0xff,
            S::DeskAtMost7 => desk.min(7),
            S::NextDesk if desk < 8 => (desk + 1) % 8,
            _ => desk,
        };
        for (i, count) in (0..).zip(counts) {
            if i == desk || self.has(S::AllDesks) && desk < 8 {
                *count = match self.slip {
                    S::SumWraps => count.wrapping_add(nodes),
                    S::StaysBefore => count.checked_add(nodes).unwrap_or(*count),
                    S::CountReplaced => nodes,
                    _ => count.saturating_add(nodes),
                };
            }
        }
    }

    fn nodes(&self, r: &Request, image: &[u8], room: usize) -> u64 {
        let mut last = self.last.borrow_mut();
        if last.as_ref().is_none_or(|(of, _)| of != image) {
            let part = Image::of(image.to_vec()).part.ok().filter(|part| part.len() >= 4096);
            *last = Some((image.to_vec(), part.map(|part| Source::of(part, self.slip))));
        }
        let Some((_, Some(source))) = last.as_ref() else { return 0 };
        source.reset();
        counted(source, r, room)
    }
}
