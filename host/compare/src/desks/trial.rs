//! One image: desks ask about it, and each count is held against the account.

use std::sync::Arc;

use sticks::random::Random;
use sticks::volume::Volume;

use crate::calls::check::pattern;
use crate::calls::directory::Rule;
use crate::checkpoints::spoiled::image_at;
use crate::desks::account::{Account, MEASURED};
use crate::desks::by_oracle::{distinct, reads};
use crate::desks::draw::{self, Drawn, NO_DESKS};
use crate::desks::order::Made;
use crate::desks::request::{self as what, Request};
use crate::desks::tally::{Tally, FILLED, NO_DESK, SATURATED};
use crate::desks::{add, Counts, Ports};
use crate::image::Image;
use crate::list::trace::LONGEST;
use crate::opening::answer;
use crate::opening::outside::outside;

/// Of a damaged superblock's volumes, no more are asked about.
const VOLUMES: u64 = 4;
/// Of a listing with more lines, some are tried.
const LINES: usize = 30;
const SOME_LINES: usize = 4;
/// One call of so many is held against the Rust.
const BY_RUST: u64 = 4;
/// Of an object whose words are asked for.
const OBJECT: usize = 512;
const NO_SUCH_CALL: i64 = -4;

pub struct Mismatch {
    /// What was asked for, where it was one call.
    pub drawn: Option<Drawn>,
    pub words: String,
}

pub type Checked = Result<(), Box<Mismatch>>;

/// An image as it is read at a checkpoint.
pub struct Trial<'a> {
    pub image: &'a Image,
    pub checkpoint: Option<u64>,
    pub ports: Option<Ports<'a>>,
    pub random: Random,
    pub counts: &'a mut Counts,
    pub tally: &'a mut Tally,
    /// Calls for [`crate::desks::order`].
    pub made: &'a mut Vec<Made>,
}

/// One call by a desk, whose count goes up by so many nodes, and no other: the result.
pub fn asked(
    ports: Ports,
    bytes: &[u8],
    d: &Drawn,
    (desk, counts): (u64, &mut Counts),
    nodes: u64,
) -> Result<i64, String> {
    let (mut want, mut got, mut after) = (pattern(d.room), pattern(d.room), *counts);
    let result = match d.request.name() {
        what::NO_CALL => NO_SUCH_CALL,
        _ => (ports.plain)(&d.request, bytes, &mut want),
    };
    let before = *counts;
    let said = (ports.desk)(counts, desk, &d.request, bytes, &mut got);
    add(&mut after, desk, nodes);
    if said != result || got != want {
        let at = got.iter().zip(&want).position(|(a, b)| a != b);
        return Err(format!("{said} by the desk, {result} by itself; the buffers differ at {at:?}"));
    }
    if *counts != after {
        return Err(format!("{nodes} nodes at desk {desk}: {before:?} became {counts:?}"));
    }
    Ok(result)
}

impl<'a> Trial<'a> {
    /// Every volume, one that is not there, and what asks for none.
    pub fn all(&mut self, volumes: &[Volume]) -> Checked {
        let image = self.image;
        let asked = image.part.as_ref().is_ok_and(|part| outside(part).is_none());
        let at = self.checkpoint.filter(|_| asked).map(|xid| image_at(image, xid, 1));
        let read = at.as_ref().unwrap_or(image);
        let mut account = Account::of(read_part(image), Rule::Kind);
        let mut by_length = Account::of(read_part(read), Rule::Length);
        let opened = answer::opened(read);
        let slots = opened.as_ref().map_or(0, |(_, c)| c.sb.fs_oids.len() as u64);
        let none = self.random.pick(&[slots, u64::MAX]);
        for volume in (0..slots.min(VOLUMES)).chain([none]) {
            let plan = volumes.get(volume as usize).or(volumes.first());
            let random = &mut self.random;
            let drawn = opened.as_ref().zip(plan);
            let drawn = drawn.and_then(|((part, c), plan)| draw::volume(part, c, volume, &plan.contents, random));
            for d in drawn.into_iter().flatten().chain(draw::each(&mut self.random)) {
                let request = draw::at(d.request, self.checkpoint, volume, &mut self.random);
                let d = Drawn { request, ..d };
                self.by_rust(&mut by_length, read, &d)?;
                self.call(&mut account, d)?;
            }
            self.listing(&mut account, volume, LINES)?;
        }
        self.object()
    }

    /// These requests on the first volume, and its listing at so many lines.
    pub fn given(&mut self, requests: Vec<Drawn>, lines: usize) -> Checked {
        let mut account = Account::of(read_part(self.image), Rule::Kind);
        let mut by_length = Account::of(read_part(self.image), Rule::Length);
        for d in requests {
            self.by_rust(&mut by_length, self.image, &d)?;
            self.call(&mut account, d)?;
        }
        self.listing(&mut account, 0, lines)
    }

    /// The Rust's count of blocks.
    fn by_rust(&mut self, account: &mut Account, image: &Image, d: &Drawn) -> Checked {
        let Ok(part) = image.part.as_ref() else { return Ok(()) };
        if !self.random.chance(1, BY_RUST) {
            return Ok(());
        }
        let latest = Request { numbered: 0, ..d.request.clone() };
        let (Some(got), Some(path)) = (reads(part, &latest), account.path(&latest, MEASURED)) else { return Ok(()) };
        self.tally.rust(&latest, got);
        let want = distinct(&path);
        if got == want {
            return Ok(());
        }
        let words = format!("{want} blocks by the account, {got} by the Rust");
        Err(Box::new(Mismatch { drawn: Some(Drawn { request: latest, room: d.room }), words }))
    }

    fn call(&mut self, account: &mut Account, d: Drawn) -> Checked {
        match account.path(&d.request, d.room as u64) {
            Some(path) => self.judge(&Arc::clone(&self.image.whole), d, path.len() as u64),
            None => {
                self.tally.vast += 1;
                Ok(())
            }
        }
    }

    /// Into buffers about the ends of lines.
    fn listing(&mut self, account: &mut Account, volume: u64, most: usize) -> Checked {
        let request = draw::at(Request::of(what::LIST), self.checkpoint, volume, &mut self.random);
        let course = account.course(&request, LONGEST as u64);
        let mut rooms: Vec<u64> = course.lines.iter().flat_map(|(end, _)| [end - 1, *end]).collect();
        if course.lines.len() > most {
            self.random.shuffle(&mut rooms);
            rooms.truncate(2 * SOME_LINES);
        }
        let end = course.lines.last().map_or(0, |(end, _)| *end);
        rooms.extend([end, end.saturating_add(1), LONGEST as u64]);
        for room in rooms.into_iter().filter(|room| *room <= LONGEST as u64) {
            let Some(nodes) = course.nodes(room) else { continue };
            let d = Drawn { request: request.clone(), room: room as usize };
            self.judge(&Arc::clone(&self.image.whole), d, nodes as u64)?;
        }
        Ok(())
    }

    /// The wrong words of a part of the image that is an object or not.
    fn object(&mut self) -> Checked {
        let whole = Arc::clone(&self.image.whole);
        let start = self.random.place(whole.len() / OBJECT + 1) * OBJECT;
        let object = Arc::new(whole[start..(start + OBJECT).min(whole.len())].to_vec());
        let room = draw::room(&mut self.random);
        let request = draw::at(Request::of(what::WRONG_WORDS), None, 0, &mut self.random);
        self.judge(&object, Drawn { request, room }, 0)
    }

    fn judge(&mut self, bytes: &Arc<Vec<u8>>, d: Drawn, nodes: u64) -> Checked {
        let desk = self.desk(nodes);
        let Some(ports) = self.ports else { return Ok(()) };
        match asked(ports, bytes, &d, (desk, self.counts), nodes) {
            Err(words) => Err(Box::new(Mismatch { drawn: Some(d), words })),
            Ok(result) => {
                self.tally.call(&d.request, result, nodes);
                if d.request.what == what::LIST {
                    self.tally.listing(result, nodes);
                }
                let (image, room) = (Arc::clone(bytes), d.room);
                self.made.push(Made { image, desk, request: d.request, room, nodes });
                Ok(())
            }
        }
    }

    /// One that there is, its count at times about to be full, or one that there is not.
    fn desk(&mut self, nodes: u64) -> u64 {
        if self.random.chance(1, 10) {
            self.tally.note(NO_DESK);
            return self.random.pick(&NO_DESKS);
        }
        let desk = self.random.below(self.counts.len() as u64);
        let count = &mut self.counts[desk as usize];
        if self.random.chance(1, 5) {
            let short = self.random.pick(&[0, 1, nodes.saturating_sub(1), nodes, nodes + 1]);
            *count = u64::MAX - short;
            if short < nodes {
                self.tally.note(SATURATED);
            } else if short == nodes && nodes > 0 {
                self.tally.note(FILLED);
            }
        } else if *count > u64::MAX / 2 {
            // A full count shows nothing of what comes after.
            *count = self.random.below(1 << 20);
        }
        desk
    }
}

/// What an image's calls read.
pub fn read_part(image: &Image) -> &[u8] {
    image.part.as_ref().map_or(&[], |part| part)
}
