//! What a call must answer: by the oracle, or by document 01 where the oracle can't tell.

use oracle::error::Error;
use oracle::fs::{Extent, Inode, Volume, Xattr, XattrData};
use oracle::nx::Container;
use oracle::probe;

use crate::calls::call::Call;
use crate::calls::directory::{Account, Directories, Rule};
use crate::calls::{line, names, replaced, stream};
use crate::image::Image;
use crate::marks::handed;
use crate::marks::records::Records;
use crate::opening::answer::{self, caught};
use crate::opening::outside::outside;

const CORRUPT: u64 = 2;
const PATH_NOT_UTF8: u64 = 5;
const TOO_SHORT: u64 = 6;
const OVERFLOW: u64 = 8;

#[derive(Clone, Debug, PartialEq, Eq)]
pub enum Answer {
    Bytes(Vec<u8>),
    Refused(u64),
    /// Whatever is a refusal or an answer within the buffer.
    Any,
    /// The oracle stopped, and not for an overflow.
    Panic(String),
}

/// How an answer is counted.
#[derive(Clone, Copy, Debug, PartialEq, Eq, PartialOrd, Ord)]
pub enum Kind {
    Answered(&'static str),
    Refused(u64),
    /// A refusal by document 01, outside the comparison's domain.
    Added(u64),
    /// An answer by document 01, outside the comparison's domain.
    Told(&'static str),
    /// Neither tells.
    Open(&'static str),
}

#[derive(Clone, Debug, PartialEq, Eq)]
pub struct Expected {
    pub answer: Answer,
    pub kind: Kind,
    /// Of the directories that the call reads.
    pub account: Account,
}

impl Expected {
    pub fn new(answer: Answer, kind: Kind) -> Expected {
        Expected { answer, kind, account: Account::None }
    }
}

/// Why there is no answer in bytes.
pub enum Stop {
    /// The oracle refuses, with the number of the error's class.
    Oracle(u64),
    Added(u64),
    Open(&'static str),
}

impl From<Error> for Stop {
    fn from(e: Error) -> Stop {
        Stop::Oracle(probe::class(&e))
    }
}

pub type Told = Result<(Vec<u8>, Kind), Stop>;

impl From<Told> for Expected {
    fn from(told: Told) -> Expected {
        let (answer, kind) = match told {
            Ok((bytes, kind)) => (Answer::Bytes(bytes), kind),
            Err(Stop::Oracle(n)) => (Answer::Refused(n), Kind::Refused(n)),
            Err(Stop::Added(n)) => (Answer::Refused(n), Kind::Added(n)),
            Err(Stop::Open(why)) => (Answer::Any, Kind::Open(why)),
        };
        Expected::new(answer, kind)
    }
}

pub fn answered(text: impl Into<Vec<u8>>, kind: &'static str) -> Told {
    Ok((text.into(), Kind::Answered(kind)))
}

/// A panic's account. Once a container is open, every sum that overflows is one that document 01 refuses.
fn stopped(a: answer::Answer, opened: bool) -> Expected {
    match a {
        answer::Answer::Overflow if opened => Err(Stop::Added(OVERFLOW)).into(),
        answer::Answer::Overflow => Err(Stop::Open("overflow in opening")).into(),
        other => Expected::new(Answer::Panic(other.to_string()), Kind::Open("panic")),
    }
}

/// Of an image that no more is known of than its part.
pub fn of_image(image: &Image, volume: u64, call: &Call) -> Expected {
    told_by(Rule::Kind, image, volume, call)
}

pub fn told_by(rule: Rule, image: &Image, volume: u64, call: &Call) -> Expected {
    let part = match &image.part {
        Ok(part) => part,
        Err(number) => return Err(Stop::Added(*number)).into(),
    };
    if outside(part).is_some() {
        return Err(Stop::Open("ring or maps too large")).into();
    }
    match caught(|| answer::container(part)) {
        Ok(Ok(c)) => of_container(part, &c, volume, call, rule),
        Ok(Err(e)) => Err(Stop::from(e)).into(),
        Err(a) => stopped(a, false),
    }
}

fn of_container(part: &[u8], c: &Container, volume: u64, call: &Call, rule: Rule) -> Expected {
    if let Call::Marked { mark } = call {
        return handed::told(part, c, mark).into();
    }
    match caught(|| c.volume(volume as usize)) {
        Ok(Ok(v)) => of_volume(part, c, &Directories::of(&v, rule), call),
        Ok(Err(e)) => Err(Stop::from(e)).into(),
        Err(a) => stopped(a, true),
    }
}

pub fn of_volume(part: &[u8], c: &Container, dirs: &Directories, call: &Call) -> Expected {
    let v = dirs.v;
    let told = caught(|| match call {
        Call::Lookup { path } => lookup(dirs, path),
        Call::Read { id, offset, length } => read(v, *id, *offset, *length),
        Call::Entry { id, place } => entry(dirs, *id, *place),
        Call::Entries { id, place, length } => entries(dirs, *id, *place, *length),
        Call::Xattr { id, place } => xattr(part, c, v, *id, *place),
        Call::XattrBytes { id, place } => xattr_bytes(part, c, v, *id, *place),
        Call::Link { id } => link(part, c, v, *id),
        Call::Extent { id, place } => extent(v, *id, *place),
        Call::Replaced { kind, id, place } => replaced::of_volume(part, c, dirs, *kind, *id, *place),
        Call::Mark { id, kind, place } => Records::of(part, c, v, (*id, *kind)).told(*place),
        Call::Marked { mark } => handed::told(part, c, mark),
    });
    let expected = told.map_or_else(|a| stopped(a, true), Expected::from);
    Expected { account: dirs.take_account(), ..expected }
}

pub fn at<T>(list: &[T], place: u64) -> Option<&T> {
    usize::try_from(place).ok().and_then(|i| list.get(i))
}

/// Where the Rust reads all directories on the way alike, it is asked for the inode.
fn lookup(dirs: &Directories, path: &[u8]) -> Told {
    let path = std::str::from_utf8(path).map_err(|_| Stop::Added(PATH_NOT_UTF8))?;
    let followed = names::followed(dirs, path);
    if dirs.account() == Account::Reference {
        return followed.and_then(|(inode, kind)| answered(line::node(&inode), kind));
    }
    let kind = match followed {
        Err(Stop::Added(n)) => return Err(Stop::Added(n)),
        followed => followed.map_or("not followed", |(_, kind)| kind),
    };
    answered(line::node(&dirs.v.lookup_path(path)?), kind)
}

fn read(v: &Volume, id: u64, offset: u64, length: usize) -> Told {
    let inode = v.inode(id)?;
    let extents = v.file_extents(&inode)?;
    if extents.windows(2).any(|w| w[0].logical > w[1].logical) {
        return Err(Stop::Added(CORRUPT));
    }
    let mut bytes = vec![0; length];
    let n = v.read_at(&inode, offset, &mut bytes)?;
    bytes.truncate(n);
    answered(bytes, read_kind(&inode, &extents, offset, n as u64))
}

fn read_kind(inode: &Inode, extents: &[Extent], offset: u64, n: u64) -> &'static str {
    let size = inode.dstream.map_or(0, |d| d.size);
    let end = offset.saturating_add(n);
    let met = |e: &&Extent| e.logical < end && e.logical.saturating_add(e.len) > offset && e.phys_block != 0;
    match extents.iter().filter(met).count() {
        _ if n == 0 && offset >= size => "at or past the end",
        _ if n == 0 => "into no buffer",
        0 => "zeros alone",
        1 => "of one extent",
        _ => "of several extents",
    }
}

fn entry(dirs: &Directories, id: u64, place: u64) -> Told {
    match at(&dirs.read(id)?, place) {
        Some(e) => answered(line::entry(e), "entry"),
        None => answered("", "past the end"),
    }
}

/// As many whole lines as fit; 6 where there is one and it does not fit.
pub fn entries(dirs: &Directories, id: u64, place: u64, room: usize) -> Told {
    let list = dirs.read(id)?;
    let rest = usize::try_from(place).ok().and_then(|i| list.get(i..)).unwrap_or_default();
    let mut text = String::new();
    for (i, e) in rest.iter().enumerate() {
        let line = line::entry(e);
        if text.len() + line.len() > room {
            return if i == 0 { Err(Stop::Added(TOO_SHORT)) } else { answered(text, "as many as fit") };
        }
        text += &line;
    }
    answered(text, if rest.is_empty() { "past the end" } else { "to the end" })
}

/// The attribute at a place and its bytes.
fn attribute(image: &[u8], c: &Container, v: &Volume, id: u64, place: u64) -> Result<Option<(Xattr, Vec<u8>)>, Stop> {
    let list = v.xattrs(id)?;
    let Some(x) = at(&list, place) else { return Ok(None) };
    match stream::data(image, c, v, x)? {
        stream::Data::Whole(data) => Ok(Some((x.clone(), data))),
        stream::Data::Long(_) => Err(Stop::Added(TOO_SHORT)),
    }
}

fn xattr(image: &[u8], c: &Container, v: &Volume, id: u64, place: u64) -> Told {
    match attribute(image, c, v, id, place)? {
        Some((x, data)) => answered(line::attribute(&x, &data), stored(&x)),
        None => answered("", "past the end"),
    }
}

fn xattr_bytes(image: &[u8], c: &Container, v: &Volume, id: u64, place: u64) -> Told {
    match attribute(image, c, v, id, place)? {
        Some((x, data)) => answered(data, stored(&x)),
        None => answered("", "past the end"),
    }
}

fn stored(x: &Xattr) -> &'static str {
    match x.data {
        XattrData::Embedded(_) => "embedded",
        XattrData::Stream { .. } => "stream",
    }
}

fn link(image: &[u8], c: &Container, v: &Volume, id: u64) -> Told {
    const ATTRIBUTE: &str = "com.apple.fs.symlink";
    let inode = v.inode(id)?;
    let x = v.xattr(id, ATTRIBUTE)?;
    let Some(x) = x else { return answered(v.read_link(&inode)?, "without an attribute") };
    match stream::data(image, c, v, &x)? {
        stream::Data::Whole(_) => answered(v.read_link(&inode)?, stored(&x)),
        stream::Data::Long(first) if first.contains(&0) => {
            Ok((probe::cstr(&first).into_bytes(), Kind::Told("long stream")))
        }
        stream::Data::Long(_) => Err(Stop::Open("long text")),
    }
}

fn extent(v: &Volume, id: u64, place: u64) -> Told {
    let list = v.file_extents(&v.inode(id)?)?;
    match at(&list, place) {
        Some(e) => answered(line::extent(e), if e.phys_block == 0 { "hole" } else { "extent" }),
        None => answered("", "past the end"),
    }
}
