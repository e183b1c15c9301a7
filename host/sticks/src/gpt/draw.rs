//! An image with a GUID partition table, drawn around a container.

use crate::block::put;
use crate::gpt::entries::{self, Entries};
use crate::gpt::fault::{self, Spoiled};
use crate::gpt::header::{Header, SECTOR};
use crate::gpt::layout::{Layout, Shape};
use crate::gpt::{Answer, NO_PARTITION_TABLE, TOO_SHORT};
use crate::random::Random;
use crate::sums::crc32;

const FIRST_BYTES: usize = 4096;
const MAGIC: usize = 32;
const NAMES: [&str; 2] = ["primary", "backup"];
const CUT_ARRAY: &str = "array past the end by a byte";
const NO_NXSB: &str = "without NXSB";
const DECIDED: &str = "decided by";
const BY: [&str; 2] = ["the primary", "the backup alone"];
const BETWEEN: &str = "between these";

/// An image, and what its maker knows of it without reading it.
pub struct Drawn {
    pub image: Vec<u8>,
    /// The part's offset and length, or the refusal's number.
    pub part: Answer,
    /// All of [`kinds`] that it shows.
    pub kinds: Vec<Kind>,
}

/// A header with its array, and what its entries lead to.
struct Table {
    header: Header,
    entries: &'static str,
    leads: Answer,
    fault: Option<String>,
}

/// What is of a kind, and which.
pub type Kind = (&'static str, String);

/// Every kind of image, table and fault that is drawn.
pub fn kinds() -> Vec<Kind> {
    let all: [(&'static str, &[&str]); 7] = [
        (DECIDED, &[BY[0], BY[1], "neither", "NXSB at byte 32", "under 4,096 bytes"]),
        ("count", &["0", "1", "2", "3", "4", "7", "128", "200"]),
        ("entry length", &["128", "256", "512", "1024", "4096"]),
        ("header length", &["92", "512", BETWEEN]),
        ("array", &["at 2", "that ends with the image", "elsewhere"]),
        ("image", &["of whole sectors", "of more than whole sectors"]),
        ("part", &[NO_NXSB]),
    ];
    let fields = all.into_iter().flat_map(|(what, kinds)| kinds.iter().map(move |k| (what, k.to_string())));
    let entries = entries::names().into_iter().map(|n| ("entries", n.to_string()));
    let faults = fault::names().into_iter().chain([CUT_ARRAY.into()]);
    let faults: Vec<Kind> = faults.flat_map(|n| NAMES.map(|which| (which, n.clone()))).collect();
    fields.chain(entries).chain(faults).collect()
}

/// A table around the container, which in some images has no NXSB, or is the whole image.
pub fn draw(container: &[u8], seed: u64) -> Drawn {
    let mut r = Random::new(seed);
    let is_whole = r.chance(1, 24);
    let shapes = [Shape::draw(&mut r), Shape::draw(&mut r)];
    let layout = Layout::draw(container.len().div_ceil(SECTOR).max(1) as u64, is_whole, &shapes, &mut r);
    let mut d = Drawing { layout, shapes, image: Vec::new(), kinds: Vec::new(), r };
    d.bytes(container, is_whole);
    let faulty = [d.r.chance(1, 2), d.r.chance(2, 5)].map(|f| f && !is_whole);
    let tables = [0, 1].map(|i| d.table(i, &faulty, is_whole));
    let part = d.part(&tables, is_whole);
    if d.r.chance(1, 60) {
        let n = d.r.place(FIRST_BYTES);
        d.image.truncate(n);
        return Drawn { image: d.image, part: Err(TOO_SHORT), kinds: vec![(DECIDED, "under 4,096 bytes".into())] };
    }
    Drawn { image: d.image, part, kinds: d.kinds }
}

struct Drawing {
    layout: Layout,
    shapes: [Shape; 2],
    image: Vec<u8>,
    kinds: Vec<Kind>,
    r: Random,
}

impl Drawing {
    /// The container and what stands about it.
    fn bytes(&mut self, container: &[u8], is_whole: bool) {
        let n = self.layout.length();
        self.image = if self.r.chance(1, 2) { self.r.bytes(n) } else { vec![0; n] };
        self.image[..SECTOR].fill(0);
        let (at, _) = self.layout.container.bytes();
        put(&mut self.image, at, container);
        if is_whole {
            put(&mut self.image, MAGIC, b"NXSB");
        } else if self.r.chance(1, 10) {
            let other = self.r.pick(&[*b"NXSA", *b"BSXN", *b"APSB", [0; 4]]);
            put(&mut self.image, at + MAGIC, &other);
            self.kinds.push(("part", NO_NXSB.into()));
        }
    }

    /// Whether the image is a byte too short for the array.
    fn is_cut(&self, i: usize) -> bool {
        self.layout.ending == Some(i) && self.layout.is_cut
    }

    /// Writes a table and spoils its header, if it is to be.
    fn table(&mut self, i: usize, faulty: &[bool; 2], is_whole: bool) -> Table {
        let decides = !faulty[i] && faulty[..i].iter().all(|f| *f) || faulty.iter().all(|f| *f);
        let mut t = self.written(i, decides && !is_whole);
        let at = t.header.sector as usize * SECTOR;
        if self.is_cut(i) {
            t.fault = Some(CUT_ARRAY.into());
        } else if faulty[i] {
            let free_tail = self.layout.ending.is_none();
            let sectors = self.layout.sectors;
            let s = &mut Spoiled { image: &mut self.image, at, sectors, free_tail, r: &mut self.r };
            t.fault = Some(fault::spoil(s));
        }
        t
    }

    /// An intact table, unless the image ends before its array; it leads to the container or to the decoy.
    fn written(&mut self, i: usize, to_container: bool) -> Table {
        let Layout { sectors, container, decoy, .. } = self.layout;
        let (shape, array) = (self.shapes[i], self.layout.arrays[i]);
        let [target, decoy] = if to_container { [container, decoy] } else { [decoy, container] };
        let mut e = Entries::new(shape, target, decoy, sectors, &mut self.r);
        let (entries, leads) = e.draw();
        let mut bytes = e.bytes;
        if self.is_cut(i) {
            // To a reader that takes what is past the end for zeros, nothing is missing.
            bytes[shape.bytes() - 1] = 0;
        }
        let at = (array as usize * SECTOR).min(self.image.len());
        let stored = bytes.len().min(self.image.len() - at);
        put(&mut self.image, at, &bytes[..stored]);
        let header = Header {
            length: shape.header,
            sector: if i == 0 { 1 } else { sectors - 1 },
            array,
            count: shape.count,
            entry_length: shape.entry,
            array_sum: crc32(&bytes[..shape.bytes()]),
        };
        header.write(&mut self.image, &mut self.r);
        Table { header, entries, leads, fault: None }
    }

    /// What the tables lead to, and which kinds they show.
    fn part(&mut self, tables: &[Table; 2], is_whole: bool) -> Answer {
        let sized = if self.layout.tail == 0 { "of whole sectors" } else { "of more than whole sectors" };
        self.kinds.push(("image", sized.into()));
        if is_whole {
            self.kinds.push((DECIDED, "NXSB at byte 32".into()));
            return Ok((0, self.image.len()));
        }
        for (i, t) in tables.iter().enumerate() {
            if let Some(fault) = &t.fault {
                self.kinds.push((NAMES[i], fault.clone()));
                continue;
            }
            self.kinds.push((DECIDED, BY[i].into()));
            self.shown(i, t);
            return t.leads;
        }
        self.kinds.push((DECIDED, "neither".into()));
        Err(NO_PARTITION_TABLE)
    }

    fn shown(&mut self, i: usize, t: &Table) {
        let Shape { header, count, entry } = self.shapes[i];
        let array = match t.header.array {
            2 => "at 2",
            _ if self.layout.ending == Some(i) => "that ends with the image",
            _ => "elsewhere",
        };
        let header = if [92, 512].contains(&header) { header.to_string() } else { BETWEEN.into() };
        self.kinds.extend([
            ("count", count.to_string()),
            ("entry length", entry.to_string()),
            ("header length", header),
            ("array", array.into()),
            ("entries", t.entries.into()),
        ]);
    }
}
