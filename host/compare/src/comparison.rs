//! Runs the cases through the port and the oracle, and counts.

use std::fmt::Write as _;

use oracle::probe;

use crate::expected::{expected, kinds};
use crate::leaf::{Case, Leaf};
use crate::port;

const LONGEST_SHOWN: usize = 4108;

struct Failure {
    a: u64,
    b: u64,
    input: Vec<u8>,
    expected: String,
    got: String,
}

impl Failure {
    fn size(&self) -> (usize, &[u8], u64, u64) {
        (self.input.len(), &self.input, self.a, self.b)
    }
}

/// An object of several blocks by its start: the seed gives the rest again.
fn hex(b: &[u8]) -> String {
    let shown = &b[..b.len().min(LONGEST_SHOWN)];
    let digits: String = shown.iter().map(|x| format!("{x:02x}")).collect();
    let rest = if shown.len() < b.len() { format!(".. of {} bytes", b.len()) } else { String::new() };
    format!("x{digits}{rest}")
}

/// What was seen of one leaf, or of a text made with several.
struct Line {
    name: &'static str,
    seen: Vec<(&'static str, u64)>,
    failed: u64,
    smallest: Option<Failure>,
}

impl Line {
    fn new(name: &'static str, kinds: &[&'static str]) -> Self {
        Line { name, seen: kinds.iter().map(|&k| (k, 0)).collect(), failed: 0, smallest: None }
    }

    fn count(&mut self, kind: &'static str) {
        let place = self.seen.iter_mut().find(|(k, _)| *k == kind);
        place.unwrap_or_else(|| panic!("{}: a kind that is not listed: {kind}", self.name)).1 += 1;
    }

    fn fail(&mut self, failure: Failure) {
        self.failed += 1;
        if self.smallest.as_ref().is_none_or(|s| failure.size() < s.size()) {
            self.smallest = Some(failure);
        }
    }

    fn good(&self) -> bool {
        self.failed == 0 && self.seen.iter().all(|&(_, n)| n > 0)
    }

    fn report(&self) -> String {
        let total: u64 = self.seen.iter().map(|(_, n)| n).sum();
        let seen: Vec<String> = self.seen.iter().map(|(k, n)| format!("{k} {n}")).collect();
        let mut out = format!("{:20} {total:>9} compared: {}\n", self.name, seen.join("; "));
        for (kind, _) in self.seen.iter().filter(|(_, n)| *n == 0) {
            writeln!(out, "    never seen: {kind}").unwrap();
        }
        if let Some(f) = &self.smallest {
            writeln!(out, "    {} differ; the smallest: a {}, b {}, input {}", self.failed, f.a, f.b, hex(&f.input))
                .unwrap();
            writeln!(out, "    expected {}, got {}", f.expected, f.got).unwrap();
        }
        out
    }
}

pub struct Comparison {
    leaves: Vec<Line>,
    lossy: Line,
    cstr: Line,
}

impl Comparison {
    #[allow(clippy::new_without_default)]
    pub fn new() -> Self {
        Comparison {
            leaves: Leaf::ALL.iter().map(|&(leaf, name)| Line::new(name, &kinds(leaf))).collect(),
            lossy: Line::new("text from pieces", &["as stored", "with replaced parts"]),
            cstr: Line::new("text from cstr", &["as stored", "with replaced parts"]),
        }
    }

    pub fn case(&mut self, c: Case) {
        let want = expected(&c);
        let got = c.answer();
        let line = &mut self.leaves[c.leaf as usize - 1];
        line.count(want.kind);
        if got != want.value {
            line.fail(failure(&c, want.value.to_string(), got.to_string()));
        }
        match c.leaf {
            Leaf::Piece => text(&mut self.lossy, &c, &String::from_utf8_lossy(c.input), c.input),
            Leaf::Cstr => {
                let end = port::cstr(c.input).min(c.input.len());
                text(&mut self.cstr, &c, &probe::cstr(c.input), &c.input[..end]);
            }
            _ => {}
        }
    }

    fn lines(&self) -> impl Iterator<Item = &Line> {
        self.leaves.iter().chain([&self.lossy, &self.cstr])
    }

    /// Whether nothing differed and every kind was seen.
    pub fn good(&self) -> bool {
        self.lines().all(Line::good)
    }

    pub fn report(&self) -> String {
        self.lines().map(Line::report).collect()
    }
}

fn failure(c: &Case, expected: String, got: String) -> Failure {
    Failure { a: c.a, b: c.b, input: c.input.to_vec(), expected, got }
}

fn text(line: &mut Line, c: &Case, want: &str, read: &[u8]) {
    line.count(if want.as_bytes() == read { "as stored" } else { "with replaced parts" });
    let got = from_pieces(read);
    if got.as_deref() != Some(want.as_bytes()) {
        line.fail(failure(c, format!("{want:?}"), format!("{:?}", got.as_deref().map(String::from_utf8_lossy))));
    }
}

/// The lossy reading as the port's pieces give it; nothing where a piece is not within the text.
fn from_pieces(mut b: &[u8]) -> Option<Vec<u8>> {
    let mut out = Vec::new();
    loop {
        let piece = port::piece(b);
        if piece == 0 {
            return b.is_empty().then_some(out);
        }
        let n = (piece % 256) as usize;
        if n == 0 || n > b.len() || piece >= 512 {
            return None;
        }
        let (now, rest) = b.split_at(n);
        out.extend(if piece < 256 { now } else { "\u{fffd}".as_bytes() });
        b = rest;
    }
}
