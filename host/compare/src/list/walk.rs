//! A listing rebuilt from the oracle's calls, and where it reads directory keys otherwise from the host's account of
//! them, in document 01's order; or its length and depth alone.

use oracle::fs::{Inode, Volume};
use oracle::nx::Container;
use oracle::probe;

use crate::calls::directory::{Directories, Rule};
use crate::calls::expected::Stop;
use crate::calls::{line, stream};
use crate::image::Image;
use crate::list::file;
use crate::list::measure::{Measure, Measured, MOST, TOO_LONG};
use crate::list::trace::{End, Trace, LONGEST};
use crate::opening::answer::{self, caught};
use crate::opening::outside::outside;

const ROOT: u64 = 2;
const DEEPEST: u64 = 64;
const OVERFLOW: u64 = 8;
const TOO_DEEP: u64 = 10;
/// No more are walked through to measure.
const NODES: u64 = 1 << 15;

/// Why no more lines follow.
enum Halt {
    Stop(Stop),
    More,
    LongLine,
}

impl<T: Into<Stop>> From<T> for Halt {
    fn from(stop: T) -> Halt {
        Halt::Stop(stop.into())
    }
}

type Walked = Result<(), Halt>;

impl From<Walked> for End {
    fn from(walked: Walked) -> End {
        match walked {
            Ok(()) => End::Whole,
            Err(Halt::More) => End::More,
            Err(Halt::LongLine) => End::LongLine,
            Err(Halt::Stop(Stop::Oracle(n) | Stop::Added(n))) => End::Refused(n),
            Err(Halt::Stop(Stop::Open(why))) => End::Open(why),
        }
    }
}

/// A panic's account. Once a container is open, every sum that overflows is one that document 01 refuses.
fn stopped(a: answer::Answer, opened: bool) -> End {
    match a {
        answer::Answer::Overflow if opened => End::Refused(OVERFLOW),
        answer::Answer::Overflow => End::Open("overflow in opening"),
        other => End::Panic(other.to_string()),
    }
}

/// Of an image that no more is known of than its part.
pub fn of_image(image: &Image, volume: u64) -> Trace {
    told_by(Rule::Kind, image, volume)
}

pub fn told_by(rule: Rule, image: &Image, volume: u64) -> Trace {
    let part = match &image.part {
        Ok(part) => part,
        Err(number) => return Trace::only(End::Refused(*number)),
    };
    if outside(part).is_some() {
        return Trace::only(End::Open("ring or maps too large"));
    }
    match caught(|| answer::container(part)) {
        Ok(Ok(c)) => with_room(part, &c, volume, LONGEST, rule),
        Ok(Err(e)) => Trace::only(End::Refused(probe::class(&e))),
        Err(a) => Trace::only(stopped(a, false)),
    }
}

pub fn of_container(part: &[u8], c: &Container, volume: u64) -> Trace {
    with_room(part, c, volume, LONGEST, Rule::Kind)
}

/// A text of more than `room` bytes is not followed to its end.
pub fn with_room(part: &[u8], c: &Container, volume: u64, room: usize, rule: Rule) -> Trace {
    let v = match caught(|| c.volume(volume as usize)) {
        Ok(Ok(v)) => v,
        Ok(Err(e)) => return Trace::only(End::Refused(probe::class(&e))),
        Err(a) => return Trace::only(stopped(a, true)),
    };
    let dirs = Directories::of(&v, rule);
    let mut walk = Walk::new(part, c, &dirs, Some(room));
    let end = walk.end();
    let account = dirs.take_account();
    let measured = match end {
        End::More | End::LongLine => gauged(part, c, &dirs),
        _ => Measured::by(&end, walk.measure()),
    };
    Trace { text: walk.text, depth: walk.depth, weight: walk.weight, account, end, measured }
}

/// Of a listing that is not followed to its end: the same walk, but that its lines are only counted.
fn gauged(part: &[u8], c: &Container, dirs: &Directories) -> Measured {
    let mut walk = Walk::new(part, c, dirs, None);
    let end = walk.end();
    Measured::by(&end, walk.measure())
}

/// What the lines so far show.
#[derive(Default)]
struct Shown {
    nodes: u64,
    bytes: u64,
    attributes: u64,
}

struct Walk<'w> {
    part: &'w [u8],
    c: &'w Container,
    v: &'w Volume<'w>,
    dirs: &'w Directories<'w>,
    /// None where no text is kept.
    room: Option<usize>,
    text: Vec<u8>,
    length: u64,
    depth: Option<u64>,
    weight: u64,
    shown: Shown,
}

impl<'w> Walk<'w> {
    fn new(part: &'w [u8], c: &'w Container, dirs: &'w Directories<'w>, room: Option<usize>) -> Walk<'w> {
        let (text, shown) = (Vec::new(), Shown::default());
        Walk { part, c, v: dirs.v, dirs, room, text, length: 0, depth: None, weight: 0, shown }
    }

    fn end(&mut self) -> End {
        caught(|| self.volume()).map_or_else(|a| stopped(a, true), End::from)
    }

    fn measure(&self) -> Measure {
        Measure { length: self.length, depth: self.depth.unwrap_or(0) }
    }

    fn line(&mut self, line: &str) -> Walked {
        self.count(line.len() as u64)?;
        let Some(room) = self.room else { return Ok(()) };
        self.text.extend(line.bytes());
        if self.text.len() > room {
            return Err(Halt::More);
        }
        Ok(())
    }

    /// A line that has this and so many bytes in hexadecimal.
    fn long(&mut self, rest: &str, bytes: u64) -> Walked {
        if self.room.is_some() {
            return Err(Halt::LongLine);
        }
        self.count(bytes.saturating_mul(2).saturating_add(rest.len() as u64))
    }

    fn count(&mut self, n: u64) -> Walked {
        self.length = self.length.saturating_add(n);
        if self.length > MOST {
            return Err(Stop::Added(TOO_LONG).into());
        }
        Ok(())
    }

    fn volume(&mut self) -> Walked {
        let rule = self.v.name_rule();
        let (case, norm) = (u8::from(rule.case_insensitive), u8::from(rule.normalization_insensitive));
        self.line(&format!("(volume {case} {norm} {}\n", line::hex(self.v.sb.name.as_bytes())))?;
        self.node(ROOT, 0)?;
        let Shown { nodes, bytes, attributes } = self.shown;
        self.line(&line::total(nodes, bytes, attributes))?;
        self.line(")\n")
    }

    fn node(&mut self, id: u64, depth: u64) -> Walked {
        if depth > DEEPEST {
            return Err(Stop::Added(TOO_DEEP).into());
        }
        let inode = if depth == 0 { self.v.root() } else { self.v.inode(id) }?;
        self.line(&line::node(&inode))?;
        self.shown.nodes += 1;
        if self.room.is_none() && self.shown.nodes > NODES {
            return Err(Halt::More);
        }
        self.depth = self.depth.max(Some(depth));
        self.weight += u64::from(self.c.block_size());
        let attributes = self.v.xattrs(id)?;
        let entries = self.dirs.read(id)?;
        for x in &attributes {
            match stream::data(self.part, self.c, self.v, x)? {
                stream::Data::Whole(data) => self.line(&line::attribute(x, &data))?,
                stream::Data::Long(_) => self.long(&line::attribute(x, &[]), stream::size(x))?,
            }
            self.shown.attributes += 1;
        }
        self.contents(&inode)?;
        for e in &entries {
            self.line(&line::entry(e))?;
            self.node(e.file_id, depth + 1)?;
            self.line(")\n")?;
        }
        self.line(")\n")
    }

    fn contents(&mut self, inode: &Inode) -> Walked {
        if inode.is_compressed() {
            return self.line("(packed)\n");
        }
        match file::contents(self.part, self.c, self.v, inode)? {
            Some(bytes) => {
                self.shown.bytes += bytes.len() as u64;
                self.line(&format!("(data {})\n", line::hex(&bytes)))
            }
            None => {
                let size = inode.dstream.map_or(0, |d| d.size);
                self.shown.bytes = self.shown.bytes.saturating_add(size);
                self.long("(data x)\n", size)
            }
        }
    }
}
