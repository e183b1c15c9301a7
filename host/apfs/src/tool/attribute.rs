//! The line of an attribute.

use crate::tool::node::text;

pub struct Attribute {
    pub flags: u64,
    pub name: String,
    /// Whether its bytes are a stream of their own.
    pub is_stream: bool,
    /// How many bytes it has.
    pub size: usize,
}

impl Attribute {
    pub fn parse(line: &str) -> Option<Attribute> {
        let words: Vec<&str> = line.strip_prefix("(attr ")?.strip_suffix(")\n")?.split(' ').collect();
        let (flags, name, is_stream, data) = match words[..] {
            [flags, name, "e", data] => (flags, name, false, data),
            [flags, name, "s", _object, data] => (flags, name, true, data),
            _ => return None,
        };
        let digits = data.strip_prefix('x')?.len();
        Some(Attribute { flags: flags.parse().ok()?, name: text(name)?, is_stream, size: digits / 2 })
    }
}

#[cfg(test)]
mod tests {
    use super::Attribute;

    #[test]
    fn an_attribute_line_is_read() {
        let a = Attribute::parse("(attr 2 x6e e x00ff)\n").expect("an attribute");
        assert_eq!((a.flags, a.name.as_str(), a.is_stream, a.size), (2, "n", false, 2));
        let a = Attribute::parse("(attr 1 x s 22 x)\n").expect("an attribute");
        assert!(a.is_stream && a.name.is_empty() && a.size == 0);
        for line in ["", "(attr 2 x6e e x00)", "(attr 2 x6e e)\n", "(attr 2 x6e s x00)\n", "(attr 2 6e e x00)\n"] {
            assert!(Attribute::parse(line).is_none(), "{line}");
        }
    }
}
