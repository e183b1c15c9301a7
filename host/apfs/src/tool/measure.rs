//! How long a volume's listing will be, and how deep.

use std::io::Write;

use crate::tool::ask::Asked;
use crate::tool::failure::Failure;

pub struct Measure {
    /// In bytes.
    pub length: u64,
    /// The greatest, the root's being 0.
    pub depth: u64,
}

impl Measure {
    pub fn parse(line: &str) -> Option<Measure> {
        let (length, depth) = line.strip_prefix("(measure ")?.strip_suffix(")\n")?.split_once(' ')?;
        Some(Measure { length: length.parse().ok()?, depth: depth.parse().ok()? })
    }
}

pub fn run(asked: &Asked, out: &mut dyn Write) -> Result<(), Failure> {
    let m = asked.measure()?;
    Ok(write!(out, "{:16} {}\n{:16} {}\n", "length", m.length, "greatest depth", m.depth)?)
}

#[cfg(test)]
mod tests {
    use super::Measure;

    #[test]
    fn a_line_is_read() {
        let m = Measure::parse("(measure 4294967295 64)\n").expect("a measure");
        assert_eq!((m.length, m.depth), (4_294_967_295, 64));
        for line in ["", "(measure 83)\n", "(measure 83 0)", "(measure 83 0 0)\n", "(measure x 0)\n"] {
            assert!(Measure::parse(line).is_none(), "{line}");
        }
    }
}
