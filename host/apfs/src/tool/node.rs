//! The lines that the port's calls answer.

/// Kinds, the stored 4 bits.
pub const DIRECTORY: u64 = 4;
pub const REGULAR: u64 = 8;
pub const LINK: u64 = 10;

const COMPRESSED: u64 = 0x20;

/// An inode's fields, in the line's order.
pub struct Node {
    pub id: u64,
    pub parent: u64,
    pub private: u64,
    /// Created, modified, changed, accessed.
    pub times: [u64; 4],
    pub internal_flags: u64,
    pub links: i32,
    pub bsd_flags: u64,
    pub owner: u64,
    pub group: u64,
    pub mode: u64,
    pub name: Option<String>,
    /// Size and allocated size.
    pub stream: Option<(u64, u64)>,
}

pub struct Entry {
    pub id: u64,
    pub kind: u64,
    pub name: String,
}

/// The text after an `x`.
pub fn text(word: &str) -> Option<String> {
    let digits = word.strip_prefix('x')?.as_bytes();
    let digit = |b: u8| char::from(b).to_digit(16);
    let byte = |pair: &[u8]| Some((digit(pair[0])? << 4 | digit(*pair.get(1)?)?) as u8);
    let bytes: Option<Vec<u8>> = digits.chunks(2).map(byte).collect();
    String::from_utf8(bytes?).ok()
}

/// `-`, or what `read` makes of the word.
fn maybe<T>(word: &str, read: impl Fn(&str) -> Option<T>) -> Option<Option<T>> {
    if word == "-" {
        Some(None)
    } else {
        read(word).map(Some)
    }
}

fn pair(word: &str) -> Option<(u64, u64)> {
    let (a, b) = word.split_once(',')?;
    Some((a.parse().ok()?, b.parse().ok()?))
}

impl Node {
    pub fn parse(line: &str) -> Option<Node> {
        let words: Vec<&str> = line.strip_prefix("(node ")?.strip_suffix('\n')?.split(' ').collect();
        let n = |i: usize| words.get(i)?.parse::<u64>().ok();
        if words.len() != 15 {
            return None;
        }
        Some(Node {
            id: n(0)?,
            parent: n(1)?,
            private: n(2)?,
            times: [n(3)?, n(4)?, n(5)?, n(6)?],
            internal_flags: n(7)?,
            links: words[8].parse().ok()?,
            bsd_flags: n(9)?,
            owner: n(10)?,
            group: n(11)?,
            mode: n(12)?,
            name: maybe(words[13], text)?,
            stream: maybe(words[14], pair)?,
        })
    }

    pub fn kind(&self) -> u64 {
        self.mode >> 12
    }

    pub fn is_compressed(&self) -> bool {
        self.bsd_flags & COMPRESSED != 0
    }

    pub fn size(&self) -> u64 {
        self.stream.map_or(0, |s| s.0)
    }
}

impl Entry {
    pub fn parse(line: &str) -> Option<Entry> {
        let words: Vec<&str> = line.strip_prefix("(entry ")?.strip_suffix('\n')?.split(' ').collect();
        let [id, _date, kind, name] = words[..] else { return None };
        Some(Entry { id: id.parse().ok()?, kind: kind.parse().ok()?, name: text(name)? })
    }
}

#[cfg(test)]
mod tests {
    use super::{Entry, Node};

    #[test]
    fn a_node_line_is_read() {
        let n = Node::parse("(node 16 2 17 1 2 3 4 5 -6 32 7 8 33188 x61c3a9 9,4096\n").expect("a node");
        assert_eq!((n.id, n.parent, n.private, n.times, n.internal_flags), (16, 2, 17, [1, 2, 3, 4], 5));
        assert_eq!((n.links, n.bsd_flags, n.owner, n.group, n.mode), (-6, 32, 7, 8, 33188));
        assert_eq!((n.name.as_deref(), n.stream, n.kind()), (Some("aé"), Some((9, 4096)), 8));
        assert!(n.is_compressed());
    }

    #[test]
    fn what_is_absent_is_a_dash() {
        let n = Node::parse("(node 2 1 2 0 0 0 0 0 0 0 0 0 16877 - -\n").expect("a node");
        assert!(n.name.is_none() && n.stream.is_none() && n.size() == 0 && !n.is_compressed());
        let n = Node::parse("(node 2 1 2 0 0 0 0 0 0 0 0 0 16877 x -\n").expect("a node");
        assert_eq!(n.name.as_deref(), Some(""));
    }

    #[test]
    fn other_lines_are_none() {
        for line in
            ["", "(node 2\n", "(node 2 1 2 0 0 0 0 0 0 0 0 0 16877 - -", "(node 2 1 2 0 0 0 0 0 0 0 0 0 16877 6 -\n"]
        {
            assert!(Node::parse(line).is_none(), "{line}");
        }
        for line in ["(entry 1 2 3\n", "(entry 1 2 3 61\n", "(entry 1 2 3 x6\n", "(entry 1 2 x 3\n"] {
            assert!(Entry::parse(line).is_none(), "{line}");
        }
    }

    #[test]
    fn an_entry_line_is_read() {
        let e = Entry::parse("(entry 16 99 8 x4142\n").expect("an entry");
        assert_eq!((e.id, e.kind, e.name.as_str()), (16, 8, "AB"));
    }
}
