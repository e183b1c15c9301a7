//! Request 02's example: a name in which U+FFFD was typed, and the same name with damaged bytes in that place.

use sticks::contents::{text, Attribute, Contents, Data, File, LINK_ATTRIBUTE, NAME_FIELD};
use sticks::random::Random;

use crate::calls::call::Call;
use crate::calls::replaced::{self, ATTRIBUTE, ENTRY, INODE, LABEL, LINK};
use crate::pairs::planned::reached;

/// By kind.
pub const NAMES: [&str; 5] = ["label", "inode's name", "entry's name", "attribute's name", "link's text"];
const TYPED: &[u8] = "\u{fffd}".as_bytes();
/// Each is replaced as one part, whatever character follows.
const DAMAGED: [&[u8]; 9] =
    [b"\xff", b"\x80", b"\xc3", b"\xc0", b"\xe2\x82", b"\xed", b"\xf0\x9f\x92", b"\xf4\x8f", b"\xf5"];
/// So much of a name is kept, as its record must fit into a node.
const CHARACTERS: usize = 40;

pub struct Marked {
    /// One of [`NAMES`].
    pub what: &'static str,
    /// The id of the link whose text it is.
    pub link: Option<u64>,
    /// What tells the two apart.
    pub call: Call,
    pub typed: Contents,
    pub damaged: Contents,
}

/// A name by its kind, the place of its file in the plan, and its place in the file's list.
#[derive(Clone, Copy)]
struct Name {
    kind: u64,
    file: usize,
    place: usize,
}

/// Nothing where the volume has no name of the drawn kind.
pub fn drawn(c: &Contents, r: &mut Random) -> Option<Marked> {
    let kind = r.below(NAMES.len() as u64);
    let files: Vec<usize> = reached(c).into_iter().filter(|&i| length(&c.files[i], kind) > 0).collect();
    let file = *files.get(r.place(files.len().max(1)))?;
    let name = Name { kind, file, place: r.place(length(&c.files[file], kind)) };
    let stored = text(field(&mut c.clone(), name)?);
    let (before, after) = parted(&stored, r);
    let with = |mark: &[u8]| {
        let mut other = c.clone();
        *field(&mut other, name)? = [before.as_bytes(), mark, after.as_bytes()].concat();
        Some(other)
    };
    let id = c.files[file].inode.id;
    let call = replaced::call(kind, id, name.place as u64);
    let link = (kind == LINK).then_some(id);
    Some(Marked { what: NAMES[kind as usize], link, call, typed: with(TYPED)?, damaged: with(r.pick(&DAMAGED))? })
}

fn parted(name: &str, r: &mut Random) -> (String, String) {
    let all: Vec<char> = name.chars().take(CHARACTERS).collect();
    let (before, after) = all.split_at(r.place(all.len() + 1));
    (before.iter().collect(), after.iter().collect())
}

/// How many names of a kind a file has; a label is any file's.
fn length(f: &File, kind: u64) -> usize {
    match kind {
        LABEL => 1,
        INODE => f.inode.last(NAME_FIELD).map_or(0, |_| 1),
        ENTRY => f.entries.len(),
        ATTRIBUTE => f.attributes.len(),
        _ => f.attributes.iter().find(|a| is_link(a)).map_or(0, |a| usize::from(matches!(a.data, Data::Embedded(_)))),
    }
}

fn is_link(a: &Attribute) -> bool {
    text(&a.name).as_bytes() == LINK_ATTRIBUTE
}

fn field(c: &mut Contents, n: Name) -> Option<&mut Vec<u8>> {
    if n.kind == LABEL {
        return Some(&mut c.label);
    }
    let f = &mut c.files[n.file];
    match n.kind {
        INODE => f.inode.fields.iter_mut().rev().find(|f| f.kind == NAME_FIELD).map(|f| &mut f.data),
        ENTRY => f.entries.get_mut(n.place).map(|e| &mut e.name),
        ATTRIBUTE => f.attributes.get_mut(n.place).map(|a| &mut a.name),
        _ => f.attributes.iter_mut().find(|a| is_link(a)).and_then(|a| match &mut a.data {
            Data::Embedded(bytes) => Some(bytes),
            Data::Stream { .. } => None,
        }),
    }
}
