//! The totals at the foot of a port's listing, with one slip or none.

use super::list::Slip as S;
use super::records::{Attribute, Data, Extent, Inode};

/// A node's form, as far as it is counted.
#[derive(Default)]
pub struct Form {
    id: u64,
    packed: bool,
    /// Of the data form.
    bytes: u64,
    /// Size and allocated size.
    stream: (u64, u64),
    /// Of the extents that are no holes.
    stored: u64,
    embedded: u64,
    streamed: u64,
    /// Bytes of the attributes.
    contents: u64,
}

impl Form {
    pub fn of(inode: &Inode) -> Form {
        let stream = inode.stream.unwrap_or_default();
        Form { id: inode.id, packed: inode.is_packed(), stream, ..Form::default() }
    }

    pub fn attribute(&mut self, a: &Attribute, length: usize) {
        self.contents += length as u64;
        match a.data {
            Data::Embedded(_) => self.embedded += 1,
            Data::Stream { .. } => self.streamed += 1,
        }
    }

    pub fn data(&mut self, extents: &[Extent], length: usize) {
        self.bytes = length as u64;
        self.stored = extents.iter().filter(|e| e.block != 0).fold(0, |n, e| n.wrapping_add(e.length));
    }

    fn bytes(&self, slip: S) -> u64 {
        match slip {
            S::BytesOfPacked if self.packed => self.stream.0,
            S::BytesAllocated if !self.packed => self.stream.1,
            S::BytesStored => self.stored,
            S::BytesWithAttributes => self.bytes + self.contents,
            S::BytesAsDigits => 2 * self.bytes,
            _ => self.bytes,
        }
    }

    fn attributes(&self, slip: S) -> u64 {
        match slip {
            S::EmbeddedAlone => self.embedded,
            S::StreamsAlone => self.streamed,
            _ => self.embedded + self.streamed,
        }
    }
}

/// Each id's first form alone.
fn once(forms: &[Form]) -> Vec<&Form> {
    let is_first = |i: &usize| forms[..*i].iter().all(|f| f.id != forms[*i].id);
    (0..forms.len()).filter(is_first).map(|i| &forms[i]).collect()
}

pub fn line(forms: &[Form], slip: S) -> String {
    let counted: Vec<&Form> = match slip {
        S::FirstNodeAlone => forms.iter().take(1).collect(),
        S::RootUncounted => forms.iter().skip(1).collect(),
        S::LinkedOnce => once(forms),
        S::PackedUncounted => forms.iter().filter(|f| !f.packed).collect(),
        _ => forms.iter().collect(),
    };
    let with_bytes = if slip == S::BytesOnce { once(forms) } else { counted.clone() };
    let nodes = counted.len() as u64;
    let bytes = with_bytes.iter().fold(0u64, |n, f| n.wrapping_add(f.bytes(slip)));
    let attributes: u64 = counted.iter().map(|f| f.attributes(slip)).sum();
    match slip {
        S::TotalsSwapped => format!("(total {nodes} {attributes} {bytes})\n"),
        S::TotalsInHex => format!("(total {nodes:x} {bytes:x} {attributes:x})\n"),
        _ => format!("(total {nodes} {bytes} {attributes})\n"),
    }
}
