//! What a listing goes through, line after line: document 01, "The listing". Of a line no more than its length is told.

use oracle::fs::{Inode, Xattr, XattrData};
use sticks::contents::text;

use crate::calls::{line, stream};
use crate::desks::readings::Readings;
use crate::list::file;

const ROOT: u64 = 2;
const DEEPEST: u64 = 64;
const BRACKET: u64 = 2;
const LABEL: std::ops::Range<usize> = 704..960;
/// No more forms are gone through.
const FORMS: u64 = 1 << 15;

#[derive(Default)]
pub struct Course {
    /// The blocks of the nodes, those of opening included.
    pub path: Vec<u64>,
    /// Of each line where it ends in the text, and how many nodes were gone through by then.
    pub lines: Vec<(u64, usize)>,
    /// There are more forms than are gone through here.
    pub vast: bool,
}

impl Course {
    pub fn of(part: &[u8], readings: &mut Readings, room: u64) -> Course {
        let mut listing = Listing { part, readings, room, course: Course::default(), shown: [0; 3] };
        // A fault, a line that does not fit or too many forms: in any case nothing comes after.
        let _ = listing.volume();
        listing.course
    }

    /// How many nodes a buffer of so many bytes lets it go through: 6 comes at the first line that does not fit, once
    /// that is read, and nothing after it.
    pub fn nodes(&self, room: u64) -> Option<usize> {
        let fitting = self.lines.partition_point(|(end, _)| *end <= room);
        match self.lines.get(fitting) {
            Some((_, nodes)) => Some(*nodes),
            None if self.vast => None,
            None => Some(self.path.len()),
        }
    }

    pub fn path(mut self, room: u64) -> Option<Vec<u64>> {
        let n = self.nodes(room)?;
        self.path.truncate(n);
        Some(self.path)
    }
}

struct Listing<'l, 'w, 'a> {
    part: &'l [u8],
    readings: &'l mut Readings<'w, 'a>,
    room: u64,
    course: Course,
    /// Node forms, bytes of data forms, and attribute forms.
    shown: [u64; 3],
}

impl Listing<'_, '_, '_> {
    /// Bytes of a block, and how many blocks there are.
    fn blocks(&self) -> (u64, u64) {
        let disk = &self.readings.walker.disk;
        (disk.block_size as u64, disk.blocks)
    }

    /// A line of so many bytes, all that it shows having been read.
    fn line(&mut self, length: u64) -> Option<()> {
        let before = self.course.lines.last().map_or(0, |(end, _)| *end);
        let end = before.saturating_add(length);
        self.course.lines.push((end, self.readings.walker.path.len()));
        (end <= self.room).then_some(())
    }

    fn text(&mut self, line: &str) -> Option<()> {
        self.line(line.len() as u64)
    }

    /// A line that has this and so many bytes in hexadecimal.
    fn hex(&mut self, rest: &str, bytes: u64) -> Option<()> {
        self.line(bytes.saturating_mul(2).saturating_add(rest.len() as u64))
    }

    fn volume(&mut self) -> Option<()> {
        let label = text(&self.readings.volume.superblock[LABEL]);
        self.hex("(volume 0 0 x\n", label.len() as u64)?;
        self.node(ROOT, 0)?;
        let [nodes, bytes, attributes] = self.shown;
        self.text(&line::total(nodes, bytes, attributes))?;
        self.line(BRACKET)
    }

    /// "After a node's line, all its attributes, then all its entries, are read before the first of them is written".
    fn node(&mut self, id: u64, depth: u64) -> Option<()> {
        if depth > DEEPEST {
            return None;
        }
        let inode = self.readings.inode(id)?;
        self.text(&line::node(&inode))?;
        self.shown[0] += 1;
        self.course.vast = self.shown[0] > FORMS;
        if self.course.vast {
            return None;
        }
        let attributes = self.readings.attributes(id)?;
        let entries = self.readings.entries(id)?;
        attributes.iter().try_for_each(|x| self.attribute(x))?;
        self.data(&inode)?;
        for e in &entries {
            self.text(&line::entry(e))?;
            self.node(e.file_id, depth + 1)?;
            self.line(BRACKET)?;
        }
        self.line(BRACKET)
    }

    fn attribute(&mut self, x: &Xattr) -> Option<()> {
        if let XattrData::Stream { obj_id, size } = x.data {
            let extents = self.readings.extents(obj_id)?;
            let (block_size, count) = self.blocks();
            stream::by_document(self.part, block_size, count, &extents, size).ok()?;
        }
        self.shown[2] += 1;
        self.hex(&line::attribute(x, &[]), stream::size(x))
    }

    fn data(&mut self, inode: &Inode) -> Option<()> {
        if inode.is_compressed() {
            return self.text("(packed)\n");
        }
        let size = inode.dstream.map_or(0, |d| d.size);
        let extents = self.readings.extents(inode.private_id)?;
        let (block_size, count) = self.blocks();
        file::whole(self.part, block_size, count, &extents, size).ok()?;
        self.shown[1] = self.shown[1].saturating_add(size);
        self.hex("(data x)\n", size)
    }
}
