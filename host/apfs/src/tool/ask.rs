//! The port's calls on a volume, at one checkpoint.

use std::cell::{RefCell, RefMut};
use std::ffi::OsStr;

use apfs::calls::Which;
use apfs::desks::Dock;
use apfs::{marks, refusal};

use crate::tool::answer::{bytes, bytes_from, count, parsed, zeros, LONGEST};
use crate::tool::attribute::Attribute;
use crate::tool::container::{Container, Volume};
use crate::tool::failure::Failure;
use crate::tool::marks::Record;
use crate::tool::measure::Measure;
use crate::tool::name::{damaged, Name};
use crate::tool::node::{Entry, Node};
use crate::tool::shown::shown;
use crate::tool::size;
use crate::tool::stick::{at, Stick};

/// What a damaged part of a name reads as.
const REPLACEMENT: char = '\u{fffd}';
const PASSES: u64 = 1;
const NOT_FOUND: u64 = 4;
const PATH_NOT_UTF8: u64 = 5;
/// Each call for entries goes through the whole directory, so it has room for many.
const ENTRIES: usize = 1 << 20;
/// An attribute has so much room at most.
const ATTRIBUTE: usize = 1 << 30;

/// All calls are made at one desk.
pub const DESK: u64 = 0;

pub struct Asked<'d> {
    pub stick: Stick,
    /// Counts the nodes that the calls go through.
    dock: &'d RefCell<Dock>,
    /// The image file's name, and the checkpoint if one was asked for, for messages.
    pub place: String,
    checkpoint: Option<u64>,
    pub volume: u64,
    pub container: Container,
}

impl Asked<'_> {
    /// Opens the container; the volume is opened when something of it is asked for.
    pub fn of<'d>(file: &OsStr, which: Which, dock: &'d RefCell<Dock>) -> Result<Asked<'d>, Failure> {
        let (Which { checkpoint, volume }, stick) = (which, Stick::of(file)?);
        let container = stick.open(checkpoint, dock)?;
        Ok(Asked { place: at(&stick.file, checkpoint), stick, dock, checkpoint, volume, container })
    }

    fn dock(&self) -> RefMut<'_, Dock> {
        self.dock.borrow_mut()
    }

    fn image(&self) -> &[u8] {
        self.stick.container()
    }

    pub fn refused(&self, what: &str, number: u64) -> Failure {
        Failure::refused_at(self.checkpoint, format!("{}: {what}", self.place), number)
    }

    fn which(&self, volume: u64) -> Which {
        Which { checkpoint: self.checkpoint, volume }
    }

    fn line<T>(&self, what: &str, line: &[u8], parse: fn(&str) -> Option<T>) -> Result<T, Failure> {
        parsed(&format!("{}: {what}", self.place), line, parse)
    }

    /// Whether a volume opens: a path that is not UTF-8 is refused after that, and before anything in the volume is read.
    pub fn opens(&self, volume: u64) -> Result<(), u64> {
        match count(self.dock().lookup(DESK, self.image(), self.which(volume), b"\xff", &mut [])) {
            Err(n) if n != PATH_NOT_UTF8 => Err(n),
            _ => Ok(()),
        }
    }

    pub fn open_volume(&self) -> Result<(), Failure> {
        let what = format!("volume {}", self.volume);
        if self.volume >= self.container.volumes.len() as u64 {
            let what = format!("{}: {what}", self.place);
            return Err(Failure::told(what, NOT_FOUND, "there is no such volume", self.container.which()));
        }
        self.opens(self.volume).map_err(|n| self.refused(&what, n))
    }

    pub fn lookup(&self, path: &[u8]) -> Result<Node, Failure> {
        self.open_volume()?;
        let what = shown_path(path);
        let line = bytes(LONGEST, &|out| self.dock().lookup(DESK, self.image(), self.which(self.volume), path, out));
        let line = line.map_err(|n| match n {
            NOT_FOUND => Failure::told(
                format!("{}: {what}", self.place),
                n,
                "there is no such file or directory",
                refusal::advice(n),
            ),
            n => self.refused(&what, n),
        })?;
        self.line(&what, &line, Node::parse)
    }

    /// The directory's entries from `place` on, as many as a buffer holds; none past the last.
    pub fn entries(&self, what: &str, id: u64, place: u64) -> Result<Vec<Entry>, Failure> {
        let call = |out: &mut [u8]| self.dock().entries(DESK, self.image(), self.which(self.volume), id, place, out);
        let text = bytes_from(ENTRIES, LONGEST, &call).map_err(|n| self.refused(what, n))?;
        text.split_inclusive(|&b| b == b'\n').map(|line| self.line(what, line, Entry::parse)).collect()
    }

    /// The attribute at `place`, or none past the last; or the refusal's number.
    pub fn attribute(&self, id: u64, place: u64) -> Result<Result<Option<Attribute>, u64>, Failure> {
        match bytes(ATTRIBUTE, &|out| self.dock().xattr(DESK, self.image(), self.which(self.volume), id, place, out)) {
            Err(n) => Ok(Err(n)),
            Ok(line) if line.is_empty() => Ok(Ok(None)),
            Ok(line) => {
                let what = format!("attribute {place} of inode {id}");
                self.line(&what, &line, Attribute::parse).map(|a| Ok(Some(a)))
            }
        }
    }

    /// The bytes of the attribute at `place`, or the refusal's number.
    pub fn attribute_bytes(&self, id: u64, place: u64) -> Result<Vec<u8>, u64> {
        bytes(ATTRIBUTE, &|out| self.dock().xattr_bytes(DESK, self.image(), self.which(self.volume), id, place, out))
    }

    /// How many bytes of the file came into `out`.
    pub fn read(&self, id: u64, offset: u64, out: &mut [u8]) -> Result<usize, u64> {
        count(self.dock().read(DESK, self.image(), self.which(self.volume), id, offset, out))
    }

    /// A file's size, or the refusal of a read.
    pub fn size(&self, id: u64) -> Result<u64, u64> {
        size::told(&|offset, out| self.read(id, offset, out))
    }

    /// A symbolic link's text, or the refusal's number.
    pub fn link(&self, id: u64) -> Result<String, u64> {
        let text = bytes(LONGEST, &|out| self.dock().link(DESK, self.image(), self.which(self.volume), id, out))?;
        Ok(String::from_utf8_lossy(&text).into_owned())
    }

    /// What stands behind a shown name: how many parts of it are damaged, if any. A name as ordinary ones are has no
    /// such part, and is not asked about.
    pub fn mark(&self, volume: u64, name: Name, text: &str) -> Result<String, Failure> {
        if !text.contains(REPLACEMENT) {
            return Ok(String::new());
        }
        let what = "damaged parts of a name";
        let (kind, id, place) = name.numbers();
        let call = |out: &mut [u8]| self.dock().replaced(DESK, self.image(), self.which(volume), kind, id, place, out);
        let line = bytes(LONGEST, &call).map_err(|n| self.refused(what, n))?;
        Ok(match self.line(what, &line, damaged)? {
            0 => String::new(),
            n => format!(" ({n} damaged)"),
        })
    }

    /// A volume's label and rule, or the refusal's number. No call but the listing tells them; one of over
    /// [`LONGEST`] bytes is not waited for.
    pub fn volume(&self, volume: u64) -> Result<Result<Volume, u64>, Failure> {
        match bytes(LONGEST, &|out| self.dock().list(DESK, self.image(), self.which(volume), out)) {
            Err(n) => Ok(Err(n)),
            Ok(text) => {
                let first = text.split_inclusive(|&b| b == b'\n').next().unwrap_or_default();
                self.line(&format!("volume {volume}"), first, Volume::parse).map(Ok)
            }
        }
    }

    /// How long the volume's listing will be, and how deep.
    pub fn measure(&self) -> Result<Measure, Failure> {
        self.open_volume()?;
        let what = format!("listing of volume {}", self.volume);
        let line = bytes(LONGEST, &|out| self.dock().measure(DESK, self.image(), self.which(self.volume), out));
        self.line(&what, &line.map_err(|n| self.refused(&what, n))?, Measure::parse)
    }

    /// The volume's listing, in as much room as it is measured to need.
    pub fn list(&self) -> Result<Vec<u8>, Failure> {
        let (what, length) = (format!("listing of volume {}", self.volume), self.measure()?.length);
        let room = usize::try_from(length).ok().and_then(zeros);
        let mut text = room.ok_or_else(|| {
            let advice = "free some, or read the volume file by file";
            Failure::Other(format!("{}: {what}: there is no memory for its {length} bytes; {advice}", self.place))
        })?;
        let n = count(self.dock().list(DESK, self.image(), self.which(self.volume), &mut text));
        text.truncate(n.map_err(|n| self.refused(&what, n))?);
        Ok(text)
    }

    /// The bookmark of a record.
    pub fn bookmark(&self, r: &Record) -> Result<Vec<u8>, Failure> {
        self.open_volume()?;
        let what = format!("record {} of kind {} of id {}", r.place, r.kind, r.id);
        let call =
            |out: &mut [u8]| self.dock().mark(DESK, self.image(), self.which(self.volume), r.id, r.kind, r.place, out);
        let mark = bytes(marks::LENGTH, &call).map_err(|n| self.refused(&what, n))?;
        if mark.is_empty() {
            let advice = "records are counted from 0, those without a value left out";
            return Err(Failure::Other(format!("{}: {what}: there is no such record; {advice}", self.place)));
        }
        Ok(mark)
    }

    /// The line of the record that a bookmark leads to. The container is open, so that 1 is said of the bookmark alone.
    pub fn bookmarked(&self, mark: &[u8]) -> Result<Vec<u8>, Failure> {
        const WORDS: &str = "its parts pass its block, or its block passes the stick";
        let what = format!("{}: bookmark", self.place);
        let line = bytes(LONGEST, &|out| self.dock().marked(DESK, self.image(), self.checkpoint, mark, out));
        line.map_err(|n| match n {
            PASSES => Failure::told(what, n, WORDS, "give one that was made of this stick"),
            n => Failure::refused_at(self.checkpoint, what, n),
        })
    }
}

/// A path for messages.
pub fn shown_path(path: &[u8]) -> String {
    match path {
        b"" => "/".into(),
        path => shown(&String::from_utf8_lossy(path)),
    }
}
