//! Names and kinds for a terminal.

/// A name whose control characters are spelt out, as a terminal would act on them.
pub fn shown(name: &str) -> String {
    let one = |c: char| if c.is_control() { c.escape_default().to_string() } else { c.to_string() };
    name.chars().map(one).collect()
}

/// The stored 4 bits in words.
pub fn kind(number: u64) -> &'static str {
    match number {
        1 => "fifo",
        2 => "char",
        4 => "dir",
        6 => "block",
        8 => "file",
        10 => "link",
        12 => "socket",
        14 => "whiteout",
        _ => "unknown",
    }
}

#[cfg(test)]
mod tests {
    use super::shown;

    #[test]
    fn control_characters_are_spelt_out() {
        assert_eq!(shown("a\n\u{1b}[2J é"), "a\\n\\u{1b}[2J é");
    }
}
