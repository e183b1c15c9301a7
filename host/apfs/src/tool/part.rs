//! The line of the part that a container is in.

use std::ops::Range;

/// Bytes of an image.
pub struct Part {
    pub offset: usize,
    pub length: usize,
}

impl Part {
    pub fn parse(line: &str) -> Option<Part> {
        let (offset, length) = line.strip_prefix("(part ")?.strip_suffix(")\n")?.split_once(' ')?;
        let part = Part { offset: offset.parse().ok()?, length: length.parse().ok()? };
        part.offset.checked_add(part.length).map(|_| part)
    }

    pub fn range(&self) -> Range<usize> {
        self.offset..self.offset + self.length
    }
}

#[cfg(test)]
mod tests {
    use super::Part;

    #[test]
    fn a_part_line_is_read() {
        let p = Part::parse("(part 20480 61440)\n").expect("a part");
        assert_eq!(p.range(), 20480..81920);
        for line in ["", "(part 1)\n", "(part 1 2)", "(part 1 2 3)\n", "(part 18446744073709551615 1)\n"] {
            assert!(Part::parse(line).is_none(), "{line}");
        }
    }
}
