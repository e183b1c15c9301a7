//! A leaf of the port, and a case to call it on.

use crate::port;

#[derive(Clone, Copy, Debug, PartialEq, Eq, PartialOrd, Ord)]
#[repr(u8)]
pub enum Leaf {
    Number = 1,
    NumberRefused,
    SliceRefused,
    Cstr,
    Piece,
    ReadsAs,
    IsUtf8,
    Replaced,
    Compute,
    Verify,
    Hash,
    LenAndHash,
    Header,
    HeaderRefused,
    ReadAt,
}

impl Leaf {
    /// In the order of their record numbers, which count from 1.
    pub const ALL: [(Leaf, &'static str); 15] = [
        (Leaf::Number, "leaf_number"),
        (Leaf::NumberRefused, "leaf_number_refused"),
        (Leaf::SliceRefused, "leaf_slice_refused"),
        (Leaf::Cstr, "leaf_cstr"),
        (Leaf::Piece, "leaf_piece"),
        (Leaf::ReadsAs, "leaf_reads_as"),
        (Leaf::IsUtf8, "leaf_is_utf8"),
        (Leaf::Replaced, "leaf_replaced"),
        (Leaf::Compute, "leaf_compute"),
        (Leaf::Verify, "leaf_verify"),
        (Leaf::Hash, "leaf_hash"),
        (Leaf::LenAndHash, "leaf_len_and_hash"),
        (Leaf::Header, "leaf_header"),
        (Leaf::HeaderRefused, "leaf_header_refused"),
        (Leaf::ReadAt, "leaf_read_at"),
    ];

    pub fn from_op(op: u8) -> Option<Leaf> {
        Self::ALL.iter().map(|&(leaf, _)| leaf).find(|&leaf| leaf as u8 == op)
    }

    pub fn name(self) -> &'static str {
        Self::ALL[self as usize - 1].1
    }
}

/// A call: `a` and `b` are the numbers in the order of the leaf's parameters, 0 where it has none.
/// The input of `leaf_reads_as` is the name and then the text, with the name's length in `a`.
#[derive(Clone, Copy, Debug, PartialEq, Eq)]
pub struct Case<'a> {
    pub leaf: Leaf,
    pub a: u64,
    pub b: u64,
    pub input: &'a [u8],
}

impl<'a> Case<'a> {
    pub fn new(leaf: Leaf, a: u64, b: u64, input: &'a [u8]) -> Self {
        Case { leaf, a, b, input }
    }

    /// The name and the text of `leaf_reads_as`.
    pub fn name_and_text(&self) -> (&'a [u8], &'a [u8]) {
        self.input.split_at(self.a as usize)
    }

    /// What the port answers.
    pub fn answer(&self) -> u64 {
        let (x, a, b) = (self.input, self.a, self.b);
        match self.leaf {
            Leaf::Number => port::number(x, a as usize, b as usize),
            Leaf::NumberRefused => port::number_refused(x, a as usize, b as usize),
            Leaf::SliceRefused => port::slice_refused(x, a as usize, b as usize),
            Leaf::Cstr => port::cstr(x) as u64,
            Leaf::Piece => port::piece(x),
            Leaf::ReadsAs => {
                let (name, text) = self.name_and_text();
                port::reads_as(name, text)
            }
            Leaf::IsUtf8 => port::is_utf8(x),
            Leaf::Replaced => port::replaced(x),
            Leaf::Compute => port::compute(x),
            Leaf::Verify => port::verify(x),
            Leaf::Hash => port::hash(x, a),
            Leaf::LenAndHash => port::len_and_hash(x, a),
            Leaf::Header => port::header(x, a),
            Leaf::HeaderRefused => port::header_refused(x),
            Leaf::ReadAt => port::read_at(x, a, b as usize),
        }
    }
}
