//! A stand-in for the crate of this name: its `nfd` is the identity.
//!
//! That is exact on ASCII only, where a text is its own decomposition. Comparisons
//! with the Rust must stay within ASCII wherever a name is normalized.

use std::str::Chars;

pub trait UnicodeNormalization<'a> {
    fn nfd(self) -> Chars<'a>;
}

impl<'a> UnicodeNormalization<'a> for &'a str {
    fn nfd(self) -> Chars<'a> {
        self.chars()
    }
}

#[cfg(test)]
mod tests {
    use super::UnicodeNormalization;

    #[test]
    fn ascii_is_its_own_decomposition() {
        let all: String = (0..128u8).map(char::from).collect();
        assert_eq!(all.nfd().collect::<String>(), all);
    }
}
