//! What a listing reads, into so many bytes.

use compare::calls::{line, stream};
use compare::list::file;
use oracle::error::{Error, Result};
use oracle::fs::{Inode, Xattr, XattrData};
use sticks::block::{get32, get64};
use sticks::contents::text;

use super::call::ROOT;
use super::slip::Slip as S;
use super::source::corrupt;
use super::volume::Volume;

const DIRECTORY: u16 = 4;
const DEEPEST: u64 = 64;
/// Where a listing goes on past its buffer, and none that is asked for has so many.
const FORMS: u64 = 5000;

/// Why a listing ends.
pub enum Stop {
    /// A line does not fit.
    Short,
    Refused(Error),
}

impl From<Error> for Stop {
    fn from(e: Error) -> Stop {
        Stop::Refused(e)
    }
}

pub struct Listing<'v> {
    pub v: &'v Volume<'v>,
    pub left: u64,
    shown: [u64; 3],
    /// The count when the last line was written.
    pub at_line: u64,
}

type Listed = std::result::Result<(), Stop>;

impl<'v> Listing<'v> {
    pub fn into(v: &'v Volume, room: u64) -> Listing<'v> {
        Listing { v, left: room, shown: [0; 3], at_line: v.source.count() }
    }

    fn has(&self, slip: S) -> bool {
        self.v.has(slip)
    }

    fn line(&mut self, length: usize, bytes: u64) -> Listed {
        let length = bytes.saturating_mul(2).saturating_add(length as u64);
        if length > self.left && !self.has(S::ShortListToTheEnd) {
            return Err(Stop::Short);
        }
        self.left = self.left.saturating_sub(length);
        self.at_line = self.v.source.count();
        Ok(())
    }

    fn twice<T>(&self, slip: S, f: impl Fn() -> Result<T>) -> Result<T> {
        let first = f()?;
        if self.has(slip) {
            f()?;
        }
        Ok(first)
    }

    pub fn volume(&mut self) -> Listed {
        self.line("(volume 0 0 x\n".len(), text(&self.v.sb.raw[704..960]).len() as u64)?;
        self.node(ROOT, 0)?;
        let [nodes, bytes, attributes] = self.shown;
        self.line(line::total(nodes, bytes, attributes).len(), 0)?;
        self.line(2, 0)
    }

    fn node(&mut self, id: u64, depth: u64) -> Listed {
        if depth > DEEPEST || self.shown[0] > FORMS {
            if self.has(S::ListedDeepRead) {
                self.v.inode(id)?;
            }
            return Err(corrupt("too deep").into());
        }
        let inode = self.twice(S::ListedInodeTwice, || self.v.inode(id))?;
        self.line(line::node(&inode).len(), 0)?;
        self.shown[0] += 1;
        let (attributes, entries) = self.lists(&inode)?;
        if self.has(S::ListedStreamsWithList) {
            attributes.iter().try_for_each(|x| self.settled(x))?;
        }
        for x in &attributes {
            self.attribute(x, &inode)?;
        }
        self.data(&inode)?;
        for e in &entries {
            self.line(line::entry(e).len(), 0)?;
            self.node(e.file_id, depth + 1)?;
            self.line(2, 0)?;
        }
        self.line(2, 0)
    }

    fn lists(&self, inode: &Inode) -> Result<(Vec<Xattr>, Vec<oracle::fs::DirEntry>)> {
        let attributes = || self.twice(S::ListedAttributesTwice, || self.v.attributes(inode.id));
        let entries = || match inode.mode >> 12 {
            kind if kind != DIRECTORY && self.has(S::ListedDirectoriesAlone) => Ok(Vec::new()),
            _ => self.twice(S::ListedEntriesTwice, || self.v.entries(inode.id)),
        };
        if self.has(S::ListedEntriesFirst) {
            let entries = entries()?;
            return Ok((attributes()?, entries));
        }
        if self.has(S::EntriesAfterFault) {
            let (attributes, entries) = (attributes(), entries());
            return Ok((attributes?, entries?));
        }
        Ok((attributes()?, entries()?))
    }

    fn blocks(&self) -> (&[u8], u64, u64) {
        let part = &self.v.source.part;
        (part, get32(part, 36).into(), get64(part, 40))
    }

    /// A stream's extents, and whether its bytes can be read.
    fn settled(&self, x: &Xattr) -> Result<()> {
        let XattrData::Stream { obj_id, size } = x.data else { return Ok(()) };
        let extents = self.twice(S::ListedStreamTwice, || self.v.extents(obj_id))?;
        let (part, block_size, count) = self.blocks();
        stream::by_document(part, block_size, count, &extents, size).map(|_| ()).map_err(|_| corrupt("a stream"))
    }

    fn attribute(&mut self, x: &Xattr, inode: &Inode) -> Listed {
        let settled = self.v.source.unless(self.has(S::ListedStreamsWithList), || self.settled(x));
        if settled.is_err() && self.has(S::FileAfterFault) && !inode.is_compressed() {
            self.v.extents(inode.private_id)?;
        }
        settled?;
        self.shown[2] += 1;
        self.line(line::attribute(x, &[]).len(), stream::size(x))
    }

    fn data(&mut self, inode: &Inode) -> Listed {
        if inode.is_compressed() {
            if self.has(S::ListedPackedRead) {
                self.v.extents(inode.private_id)?;
            }
            return self.line("(packed)\n".len(), 0);
        }
        let size = inode.dstream.map_or(0, |d| d.size);
        let extents = self.twice(S::ListedFileTwice, || self.v.extents(inode.private_id))?;
        let (part, block_size, count) = self.blocks();
        file::whole(part, block_size, count, &extents, size).map_err(|_| corrupt("a file"))?;
        self.shown[1] = self.shown[1].saturating_add(size);
        self.line("(data x)\n".len(), size)
    }
}
