//! Request 08's line held against the lines above it, by the text alone.

/// NODES, BYTES and ATTRS.
pub type Totals = [u64; 3];

/// The count over the lines of a text.
pub fn counted(text: &str) -> Totals {
    let of = |form: &str| text.lines().filter(|line| line.starts_with(form)).count() as u64;
    let hex = text.lines().filter_map(|line| line.strip_prefix("(data x")?.strip_suffix(')'));
    let digits: usize = hex.map(str::len).sum();
    [of("(node "), digits as u64 / 2, of("(attr ")]
}

/// Where the line of totals stands in a whole listing: the last before the bracket.
pub fn start(text: &[u8]) -> Option<usize> {
    let above = text.strip_suffix(b"\n)\n")?;
    Some(above.iter().rposition(|&b| b == b'\n').map_or(0, |i| i + 1))
}

/// What a whole listing says itself, in decimal without leading zeros.
pub fn told(text: &str) -> Option<Totals> {
    let line = &text[start(text.as_bytes())?..];
    let words: Vec<&str> = line.strip_prefix("(total ")?.strip_suffix(")\n)\n")?.split(' ').collect();
    let numbers: Vec<u64> = words.iter().filter_map(|w| w.parse().ok()).collect();
    let plain = numbers.iter().map(u64::to_string).eq(words.iter().map(|w| w.to_string()));
    numbers.try_into().ok().filter(|_| plain)
}

/// The totals of a whole listing, where they are the count over its lines; else words that say so.
pub fn held(text: &[u8]) -> Result<Totals, String> {
    let text = std::str::from_utf8(text).map_err(|e| e.to_string())?;
    match (told(text), counted(text)) {
        (Some(told), counted) if told == counted => Ok(told),
        (told, counted) => Err(format!("totals {told:?} where {counted:?} are counted")),
    }
}
