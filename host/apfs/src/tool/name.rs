//! A name by its place, and the line of how many parts of it are damaged.

/// The volume is said apart.
#[derive(Clone, Copy)]
pub enum Name {
    Label,
    /// In the inode of that id.
    Inode(u64),
    /// Of a directory's id, at a place.
    Entry(u64, u64),
    /// Of an inode's id, at a place.
    Attribute(u64, u64),
    /// The text of a symbolic link.
    Target(u64),
}

impl Name {
    /// Kind, id and place as the call takes them.
    pub fn numbers(self) -> (u64, u64, u64) {
        match self {
            Name::Label => (0, 0, 0),
            Name::Inode(id) => (1, id, 0),
            Name::Entry(id, place) => (2, id, place),
            Name::Attribute(id, place) => (3, id, place),
            Name::Target(id) => (4, id, 0),
        }
    }
}

/// How many parts were replaced.
pub fn damaged(line: &str) -> Option<u64> {
    line.strip_prefix("(replaced ")?.strip_suffix(")\n")?.parse().ok()
}

#[cfg(test)]
mod tests {
    use super::damaged;

    #[test]
    fn a_number_line_is_read() {
        assert_eq!(damaged("(replaced 0)\n"), Some(0));
        assert_eq!(damaged("(replaced 18446744073709551615)\n"), Some(u64::MAX));
        for line in ["", "(replaced 1)", "(replaced )\n", "(replaced -1)\n", "(replaced 1 2)\n", "(part 1)\n"] {
            assert!(damaged(line).is_none(), "{line}");
        }
    }
}
