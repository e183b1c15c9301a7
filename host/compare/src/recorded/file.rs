//! The form of the file.
//!
//! A record is: op and refusal (1 byte each), volume, a, b (8 each), the buffer's length, the count that is answered, the
//! CRC-32C register of all the buffer after the call, the input's length (4 each), the input: a path, an object, a mark,
//! or a name's or a record's kind and a transaction number (8 each); a transaction number is a where a says nothing else.
//! The input of a desk's call is the desk, what is asked for, whether it is at a number, that number, c, what each count
//! is before the call, the eight counts after it (8 each), and a path or a mark.
//! Numbers are little-endian. An op of 0 ends the file.

use sticks::sums::crc32c;

use crate::calls::call::Call;
use crate::calls::check::pattern;
use crate::recorded::asked::{Asked, Question, Told};
use crate::recorded::at_desk::AtDesk;

pub const END: u8 = 0;
pub const TITLE: u8 = 1;
pub const IMAGE: u8 = 2;
/// Images are no longer.
pub const LONGEST: usize = 1 << 18;
/// Bytes in a row that are as before; fewer are written with those about them.
const APART: usize = 12;

pub struct File {
    bytes: Vec<u8>,
    /// The image before, and what was left behind it of those before that.
    before: Vec<u8>,
}

impl Default for File {
    fn default() -> File {
        File { bytes: Vec::new(), before: vec![0; LONGEST] }
    }
}

#[derive(Default)]
struct Record<'r> {
    op: u8,
    refusal: u8,
    numbers: [u64; 3],
    room: usize,
    count: u32,
    sum: u32,
    input: &'r [u8],
}

impl File {
    fn push(&mut self, r: Record) {
        self.bytes.extend([r.op, r.refusal]);
        self.bytes.extend(r.numbers.iter().flat_map(|n| n.to_le_bytes()));
        for n in [r.room as u32, r.count, r.sum, r.input.len() as u32] {
            self.bytes.extend(n.to_le_bytes());
        }
        self.bytes.extend(r.input);
    }

    /// What the records up to the next title are about.
    pub fn title(&mut self, title: &str) {
        self.push(Record { op: TITLE, input: title.as_bytes(), ..Record::default() });
    }

    /// The image that calls are made on, up to the next: by its parts that are not zeros, or that are not as before.
    pub fn image(&mut self, image: &[u8]) {
        let (whole, changes) = (parts(image, &vec![0; image.len()]), parts(image, &self.before));
        let (kept, input) = if changes.len() < whole.len() { (1, changes) } else { (0, whole) };
        if kept == 0 {
            self.before.fill(0);
        }
        self.before[..image.len()].copy_from_slice(image);
        self.push(Record { op: IMAGE, numbers: [0, image.len() as u64, kept], input: &input, ..Record::default() });
    }

    /// A call that has an op.
    pub fn call(&mut self, q: &Question, told: &Told) {
        let (op, a, b, input) = coded(&q.asked).unwrap_or_else(|| panic!("no op: {q}"));
        let (refusal, count, sum) = answer(q, told);
        self.push(Record { op, refusal, numbers: [q.volume, a, b], room: q.room, count, sum, input: &input });
    }

    pub fn finish(mut self) -> Vec<u8> {
        self.bytes.push(END);
        self.bytes
    }
}

/// Whether `crates/cases` has an op for what is asked.
pub fn has_op(asked: &Asked) -> bool {
    coded(asked).is_some()
}

fn eight(n: impl Into<u64>) -> Vec<u8> {
    n.into().to_le_bytes().to_vec()
}

/// Op, a, b and input.
fn coded(asked: &Asked) -> Option<(u8, u64, u64, Vec<u8>)> {
    let none = Vec::new();
    Some(match asked {
        Asked::Open => (3, 0, 0, none),
        Asked::Call(Call::Lookup { path }) => (4, 0, 0, path.clone()),
        Asked::Call(Call::Read { id, offset, .. }) => (5, *id, *offset, none),
        Asked::Call(Call::Entry { id, place }) => (6, *id, *place, none),
        Asked::Call(Call::Xattr { id, place }) => (7, *id, *place, none),
        Asked::Call(Call::Link { id }) => (8, *id, 0, none),
        Asked::Call(Call::Extent { id, place }) => (9, *id, *place, none),
        Asked::List => (10, 0, 0, none),
        Asked::Call(Call::Replaced { kind, id, place }) => (11, *id, *place, eight(*kind)),
        Asked::Checkpoints => (12, 0, 0, none),
        Asked::At(xid, asked) => return coded_at(*xid, asked),
        Asked::WrongWords(object) => (17, 0, 0, object.clone()),
        Asked::Measure => (18, 0, 0, none),
        Asked::Call(Call::Mark { id, kind, place }) => (20, *id, *place, eight(*kind)),
        Asked::Call(Call::Marked { mark }) => (22, 0, 0, mark.clone()),
        Asked::Desk(d) => (24, d.request.a, d.request.b, desk_input(d)),
        Asked::Call(Call::Entries { .. } | Call::XattrBytes { .. }) => return None,
    })
}

fn desk_input(d: &AtDesk) -> Vec<u8> {
    let r = &d.request;
    let numbers = [d.desk, r.what, r.numbered, r.xid, r.c, d.from].into_iter().chain(d.after);
    numbers.flat_map(u64::to_le_bytes).chain(r.path.iter().copied()).collect()
}

/// The same at a checkpoint.
fn coded_at(xid: u64, asked: &Asked) -> Option<(u8, u64, u64, Vec<u8>)> {
    Some(match asked {
        Asked::Open => (13, xid, 0, Vec::new()),
        Asked::Call(Call::Lookup { path }) => (14, xid, 0, path.clone()),
        Asked::List => (15, xid, 0, Vec::new()),
        Asked::Call(Call::Read { id, offset, .. }) => (16, *id, *offset, eight(xid)),
        Asked::Measure => (19, xid, 0, Vec::new()),
        Asked::Call(Call::Mark { id, kind, place }) => (21, *id, *place, [eight(*kind), eight(xid)].concat()),
        Asked::Call(Call::Marked { mark }) => (23, xid, 0, mark.clone()),
        _ => return None,
    })
}

/// The refusal or 0, the count, and the buffer's sum.
pub fn answer(q: &Question, told: &Told) -> (u8, u32, u32) {
    let sum = crc32c(!0, &left(q, told));
    match told {
        Told::Refused(n) => (*n as u8, 0, sum),
        Told::Bytes(bytes) => (0, q.asked.count(bytes.len()) as u32, sum),
    }
}

/// The buffer after the call: a refused listing leaves zeros, any other refusal what was there.
fn left(q: &Question, told: &Told) -> Vec<u8> {
    let mut buffer = pattern(q.room);
    match told {
        Told::Bytes(bytes) => buffer[..bytes.len()].copy_from_slice(bytes),
        Told::Refused(_) if q.asked.is_list() => buffer.fill(0),
        Told::Refused(_) => {}
    }
    buffer
}

/// Each part that differs: how many bytes stand before it and how many it has (4 bytes each), then its bytes.
pub fn parts(image: &[u8], before: &[u8]) -> Vec<u8> {
    let differs: Vec<bool> = image.iter().zip(before).map(|(a, b)| a != b).collect();
    let (mut out, mut end) = (Vec::new(), 0);
    while let Some(n) = differs[end..].iter().position(|&d| d) {
        let start = end + n;
        let rest = &differs[start..];
        let len = rest.windows(APART).position(|w| w.iter().all(|&d| !d)).unwrap_or(rest.len());
        for n in [start - end, len] {
            out.extend((n as u32).to_le_bytes());
        }
        end = start + len;
        out.extend(&image[start..end]);
    }
    out
}
