//! How many parts of a name its lossy reading replaces. The Rust has no such number, so the host counts: on the bytes
//! that a plan gives a name, and on those that stand in an image.

use oracle::fs::Volume;
use oracle::nx::Container;
use oracle::probe;
use sticks::contents::{text, Contents, Data, File, LINK_ATTRIBUTE, NAME_FIELD};

use crate::calls::call::Call;
use crate::calls::directory::Directories;
use crate::calls::expected::{answered, at, Answer, Expected, Kind, Stop, Told};
use crate::calls::{stored, stream};

pub const LABEL: u64 = 0;
pub const INODE: u64 = 1;
pub const ENTRY: u64 = 2;
pub const ATTRIBUTE: u64 = 3;
pub const LINK: u64 = 4;

/// How answers are counted, by kind: without U+FFFD in the text, with one that was typed, and with replaced parts.
pub const SEEN: [[&str; 3]; 5] = [
    ["label", "label, typed", "label, replaced"],
    ["inode's name", "inode's name, typed", "inode's name, replaced"],
    ["entry", "entry, typed", "entry, replaced"],
    ["attribute", "attribute, typed", "attribute, replaced"],
    ["link", "link, typed", "link, replaced"],
];
pub const NO_NAME: &str = "no name";
pub const PAST: &str = "past the end";

const NO_LINK: u64 = 2;
const NO_KIND: u64 = 4;
const UNUSED: u64 = u64::MAX;

/// The call for a name. Numbers that it does not look at are far from any.
pub fn call(kind: u64, id: u64, place: u64) -> Call {
    match kind {
        LABEL => Call::Replaced { kind, id: UNUSED, place: UNUSED },
        INODE | LINK => Call::Replaced { kind, id, place: UNUSED },
        _ => Call::Replaced { kind, id, place },
    }
}

/// Of a field's bytes up to the first zero byte.
pub fn count(field: &[u8]) -> u64 {
    let name = field.split(|&b| b == 0).next().unwrap_or_default();
    name.utf8_chunks().filter(|chunk| !chunk.invalid().is_empty()).count() as u64
}

pub fn line(n: u64) -> String {
    format!("(replaced {n})\n")
}

/// Of a name of that kind, or of none.
fn told(kind: u64, field: Option<&[u8]>) -> Told {
    let Some(field) = field else {
        return answered("", if kind == INODE { NO_NAME } else { PAST });
    };
    let n = count(field);
    let seen = match n {
        0 if text(field).contains('\u{fffd}') => 1,
        0 => 0,
        _ => 2,
    };
    answered(line(n), SEEN[kind as usize][seen])
}

/// By the bytes that stand in the image. They must read as the Rust reads the name.
pub fn of_volume(part: &[u8], c: &Container, dirs: &Directories, kind: u64, id: u64, place: u64) -> Told {
    let v = dirs.v;
    let (field, read) = match kind {
        LABEL => (Some(stored::label(v)), Some(v.sb.name.clone())),
        INODE => {
            let inode = v.inode(id)?;
            (stored::inode(v, id)?, inode.name)
        }
        ENTRY => {
            let list = dirs.read(id)?;
            (at(&dirs.fields(id)?, place).cloned(), at(&list, place).map(|e| e.name.clone()))
        }
        ATTRIBUTE => {
            let list = v.xattrs(id)?;
            (at(&stored::attributes(v, id)?, place).cloned(), at(&list, place).map(|x| x.name.clone()))
        }
        LINK => target(part, c, v, id).map(|(bytes, read)| (Some(bytes), Some(read)))?,
        _ => return Err(Stop::Added(NO_KIND)),
    };
    assert_eq!(field.as_deref().map(text), read, "the stored bytes of kind {kind}, {place} of {id}");
    told(kind, field.as_deref())
}

/// A link's bytes, and its text by the Rust.
fn target(part: &[u8], c: &Container, v: &Volume, id: u64) -> Result<(Vec<u8>, String), Stop> {
    let inode = v.inode(id)?;
    let Some(x) = v.xattr(id, "com.apple.fs.symlink")? else {
        return Err(v.read_link(&inode).expect_err("no text without an attribute").into());
    };
    match stream::data(part, c, v, &x)? {
        stream::Data::Whole(bytes) => Ok((bytes, v.read_link(&inode)?)),
        stream::Data::Long(first) if first.contains(&0) => {
            let read = probe::cstr(&first);
            Ok((first, read))
        }
        stream::Data::Long(_) => Err(Stop::Open("long text")),
    }
}

/// Every name of a regular volume, and one place past the end of each list that has any, by its plan alone.
pub fn planned(c: &Contents) -> Vec<(Call, Expected)> {
    let mut out = vec![(call(LABEL, 0, 0), told(LABEL, Some(&c.label)).into())];
    c.files.iter().for_each(|f| out.extend(of_file(c, f)));
    out
}

fn of_file(c: &Contents, f: &File) -> Vec<(Call, Expected)> {
    let id = f.inode.id;
    let one = |kind: u64, place: u64, field: Option<&[u8]>| (call(kind, id, place), Expected::from(told(kind, field)));
    let name = f.inode.last(NAME_FIELD).map(|f| &f.data[..]);
    let mut out = vec![one(INODE, 0, name)];
    let mut list = |kind: u64, names: Vec<&[u8]>| {
        let past = if names.is_empty() { None } else { Some(None) };
        out.extend((0..).zip(names.into_iter().map(Some).chain(past)).map(|(place, name)| one(kind, place, name)));
    };
    list(ENTRY, f.entries.iter().map(|e| &e.name[..]).collect());
    list(ATTRIBUTE, f.attributes.iter().map(|a| &a.name[..]).collect());
    if !f.attributes.is_empty() {
        out.push((call(LINK, id, 0), of_link(c, f)));
    }
    out
}

fn of_link(c: &Contents, f: &File) -> Expected {
    let is_link = |name: &[u8]| text(name).as_bytes() == LINK_ATTRIBUTE;
    match f.attributes.iter().find(|a| is_link(&a.name)).map(|a| &a.data) {
        Some(Data::Embedded(bytes)) => told(LINK, Some(bytes)).into(),
        Some(Data::Stream { id, size }) => told(LINK, Some(&c.bytes(*id, *size))).into(),
        None => Expected::new(Answer::Refused(NO_LINK), Kind::Refused(NO_LINK)),
    }
}
