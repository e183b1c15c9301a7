//! The listing as a volume's plan has it, without any reader: whether a change shows is known by it.

use oracle::fs::{DirEntry, Dstream, FileKind, Inode, Xattr, XattrData};
use sticks::contents::{self, Attribute, Contents, Data, Entry, File};

use crate::calls::line;

const ROOT: u64 = 2;
const DEEPEST: u64 = 64;
const NO_INODE: u64 = 4;
const TOO_SHORT: u64 = 6;
const TOO_DEEP: u64 = 10;
const KIND: u16 = 0xf;

/// The text of regular contents in a buffer of `room` bytes, or the refusal's number.
pub fn listing(c: &Contents, room: usize) -> Result<Vec<u8>, u64> {
    let mut planned = Planned { c, room, text: Vec::new() };
    let (case, norm) = (u8::from(c.case_insensitive), u8::from(c.normalization_insensitive));
    planned.line(&format!("(volume {case} {norm} {}\n", line::hex(contents::text(&c.label).as_bytes())))?;
    let [nodes, bytes, attributes] = planned.node(ROOT, 0)?;
    planned.line(&line::total(nodes, bytes, attributes))?;
    planned.line(")\n")?;
    Ok(planned.text)
}

/// The places of all files that the root leads to, the root among them.
pub fn reached(c: &Contents) -> Vec<usize> {
    let place = |id: u64| c.files.iter().position(|f| f.inode.id == id);
    let mut out: Vec<usize> = place(ROOT).into_iter().collect();
    let mut next = 0;
    while let Some(&at) = out.get(next) {
        let found = c.files[at].entries.iter().filter_map(|e| place(e.id));
        found.for_each(|p| {
            if !out.contains(&p) {
                out.push(p)
            }
        });
        next += 1;
    }
    out
}

/// Nodes, bytes and attributes that a node's form shows, those below it among them.
type Shown = [u64; 3];

struct Planned<'c> {
    c: &'c Contents,
    room: usize,
    text: Vec<u8>,
}

impl Planned<'_> {
    fn line(&mut self, line: &str) -> Result<(), u64> {
        self.text.extend(line.bytes());
        if self.text.len() > self.room {
            return Err(TOO_SHORT);
        }
        Ok(())
    }

    fn node(&mut self, id: u64, depth: u64) -> Result<Shown, u64> {
        if depth > DEEPEST {
            return Err(TOO_DEEP);
        }
        let f = self.c.file(id).ok_or(NO_INODE)?;
        self.line(&line::node(&inode(f)))?;
        for a in &f.attributes {
            self.line(&self.attribute(a))?;
        }
        self.line(&self.data(f))?;
        let mut shown = [1, size(f), f.attributes.len() as u64];
        for e in &f.entries {
            self.line(&line::entry(&entry(e)))?;
            let below = self.node(e.id, depth + 1)?;
            shown.iter_mut().zip(below).for_each(|(n, more)| *n += more);
            self.line(")\n")?;
        }
        self.line(")\n")?;
        Ok(shown)
    }

    fn attribute(&self, a: &Attribute) -> String {
        let (data, bytes) = match &a.data {
            Data::Embedded(b) => (XattrData::Embedded(Vec::new()), b.clone()),
            Data::Stream { id, size } => (XattrData::Stream { obj_id: *id, size: *size }, self.c.bytes(*id, *size)),
        };
        line::attribute(&Xattr { name: contents::text(&a.name), flags: a.flags, data }, &bytes)
    }

    fn data(&self, f: &File) -> String {
        if f.inode.is_compressed() {
            return "(packed)\n".into();
        }
        format!("(data {})\n", line::hex(&self.c.bytes(f.inode.private, size(f))))
    }
}

/// How many bytes are shown of a file's data.
fn size(f: &File) -> u64 {
    if f.inode.is_compressed() {
        return 0;
    }
    f.inode.stream().map_or(0, |s| s.0)
}

fn inode(f: &File) -> Inode {
    let i = &f.inode;
    Inode {
        id: i.id,
        parent_id: i.parent,
        private_id: i.private,
        create_time: i.times[0],
        mod_time: i.times[1],
        change_time: i.times[2],
        access_time: i.times[3],
        internal_flags: i.flags,
        nchildren_or_nlink: i.links,
        bsd_flags: i.bsd,
        owner: i.owner,
        group: i.group,
        mode: i.mode,
        name: i.name(),
        dstream: i.stream().map(|(size, alloced_size)| Dstream { size, alloced_size }),
    }
}

fn entry(e: &Entry) -> DirEntry {
    let kind = FileKind::from_dt(e.flags & KIND);
    DirEntry { name: contents::text(&e.name), file_id: e.id, date_added: e.date, kind }
}
