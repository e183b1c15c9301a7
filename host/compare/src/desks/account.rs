//! The nodes that a call goes through, from the sentences of request 06 and the readings of document 01: a call opens
//! its container and its volume, and reads until it has its answer or is refused.

use std::collections::HashMap;

use oracle::fs::{DirEntry, Xattr, XattrData};
use sticks::block::get64;

use crate::calls::directory::Rule;
use crate::calls::expected::at;
use crate::calls::{names, replaced};
use crate::desks::course::Course;
use crate::desks::opening::{superblock, Container, Volume};
use crate::desks::readings::Readings;
use crate::desks::request::{self as what, Request};
use crate::trees::Walker;
use oracle::fs::NameRule;

const ROOT: u64 = 2;
const LINK: &str = "com.apple.fs.symlink";
const CASE_INSENSITIVE: u64 = 0x1;
const NORMALIZATION_INSENSITIVE: u64 = 0x8;
/// A measurement goes through what a listing into so many bytes does.
pub const MEASURED: u64 = 4_294_967_295;

/// Of a part of an image.
pub struct Account<'a> {
    part: &'a [u8],
    walker: Option<Walker<'a>>,
    /// Of the checkpoints that were asked for.
    superblocks: HashMap<Option<u64>, Option<&'a [u8]>>,
    keys: Rule,
}

impl<'a> Account<'a> {
    pub fn of(part: &'a [u8], keys: Rule) -> Account<'a> {
        Account { part, walker: Walker::of(part), superblocks: HashMap::new(), keys }
    }

    /// The blocks of the nodes, one after the other; none where a listing has too many to go through here.
    pub fn path(&mut self, r: &Request, room: u64) -> Option<Vec<u64>> {
        match r.what {
            what::LIST => self.course(r, room).path(room),
            what::MEASURE => self.course(r, MEASURED).path(MEASURED),
            what::CHECKPOINTS | what::PART | what::WRONG_WORDS => Some(Vec::new()),
            _ if r.name() == what::NO_CALL => Some(Vec::new()),
            _ => Some(self.gone(r, |readings| called(readings, r)).0),
        }
    }

    /// Of a listing, as far as the lines are within so many bytes.
    pub fn course(&mut self, r: &Request, room: u64) -> Course {
        let part = self.part;
        let (path, course) = self.gone(r, |readings| Some(Course::of(part, readings, room)));
        Course { path, ..course.unwrap_or_default() }
    }

    /// What is gone through from opening on, and what became of it.
    fn gone<T>(&mut self, r: &Request, f: impl FnOnce(&mut Readings<'_, 'a>) -> Option<T>) -> (Vec<u64>, Option<T>) {
        let (part, checkpoint, keys) = (self.part, r.checkpoint(), self.keys);
        let superblock = *self.superblocks.entry(checkpoint).or_insert_with(|| superblock(part, checkpoint));
        let (Some(walker), Some(superblock)) = (&mut self.walker, superblock) else { return (Vec::new(), None) };
        let done = opened(superblock, r, walker).and_then(|volume| f(&mut Readings { walker, volume: &volume, keys }));
        (std::mem::take(&mut walker.path), done)
    }
}

/// The volume; a bookmark that is handed in asks for none.
fn opened<'a>(superblock: &'a [u8], r: &Request, walker: &mut Walker<'a>) -> Option<Volume<'a>> {
    let container = Container::open(superblock, walker)?;
    match r.what {
        what::OPEN | what::MARKED => None,
        _ => container.volume(r.volume, walker),
    }
}

fn called(readings: &mut Readings, r: &Request) -> Option<()> {
    match r.what {
        what::LOOKUP => lookup(readings, &r.path),
        what::READ | what::EXTENT => contents(readings, r.a),
        what::ENTRY | what::ENTRIES => readings.entries(r.a).map(|_| ()),
        what::XATTR | what::XATTR_BYTES => {
            let list = readings.attributes(r.a)?;
            at(&list, r.b).map_or(Some(()), |x| stream(readings, x))
        }
        what::LINK => link(readings, r.a),
        what::MARK => mark(readings, r),
        what::REPLACED => name(readings, r),
        other => unreachable!("{other} is no call on a volume"),
    }
}

fn lookup(readings: &mut Readings, path: &[u8]) -> Option<()> {
    let path = std::str::from_utf8(path).ok()?;
    let mut at = readings.inode(ROOT)?;
    for part in path.split(['/', '\\']).filter(|part| !part.is_empty()) {
        let entries = readings.entries(at.id)?;
        at = readings.inode(chosen(readings, &entries, part)?)?;
    }
    Some(())
}

fn chosen(readings: &Readings, entries: &[DirEntry], part: &str) -> Option<u64> {
    let features = get64(readings.volume.superblock, 56);
    let rule = NameRule {
        case_insensitive: features & CASE_INSENSITIVE != 0,
        normalization_insensitive: features & NORMALIZATION_INSENSITIVE != 0,
    };
    names::chosen(rule, entries, part).ok()?.map(|e| e.file_id)
}

/// The extents of a file that is not compressed.
fn contents(readings: &mut Readings, id: u64) -> Option<()> {
    let inode = readings.inode(id).filter(|inode| !inode.is_compressed())?;
    readings.extents(inode.private_id).map(|_| ())
}

/// The extents of an attribute whose contents lie in a stream.
fn stream(readings: &mut Readings, x: &Xattr) -> Option<()> {
    match x.data {
        XattrData::Embedded(_) => Some(()),
        XattrData::Stream { obj_id, .. } => readings.extents(obj_id).map(|_| ()),
    }
}

fn link(readings: &mut Readings, id: u64) -> Option<()> {
    readings.inode(id)?;
    let list = readings.attributes(id)?;
    stream(readings, list.iter().find(|x| x.name == LINK)?)
}

/// Up to the record after so many others.
fn mark(readings: &mut Readings, r: &Request) -> Option<()> {
    let mut left = r.b;
    readings.walker.scan(&readings.volume.tree, (r.a, r.c as u8), &mut |_| {
        let goes_on = left > 0;
        left = left.saturating_sub(1);
        Some(goes_on)
    })
}

fn name(readings: &mut Readings, r: &Request) -> Option<()> {
    match r.c {
        replaced::INODE => readings.inode(r.a).map(|_| ()),
        replaced::ENTRY => readings.entries(r.a).map(|_| ()),
        replaced::ATTRIBUTE => readings.attributes(r.a).map(|_| ()),
        replaced::LINK => link(readings, r.a),
        // The label is the superblock's, and there are no other names.
        _ => Some(()),
    }
}
