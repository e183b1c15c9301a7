//! Bookmarks of records, as 48 hexadecimal digits.

use std::ffi::OsStr;
use std::io::Write;

use apfs::marks::LENGTH;

use crate::tool::ask::Asked;
use crate::tool::failure::Failure;

/// A record by its place among those of an id and a kind.
pub struct Record {
    pub id: u64,
    pub kind: u8,
    pub place: u64,
}

/// The bytes of a bookmark, if the word is one.
pub fn read(word: &OsStr) -> Option<Vec<u8>> {
    let digits: Option<Vec<u8>> = word.to_str()?.chars().map(|c| c.to_digit(16).map(|d| d as u8)).collect();
    let pairs = digits.filter(|d| d.len() == 2 * LENGTH)?;
    Some(pairs.chunks(2).map(|pair| pair[0] << 4 | pair[1]).collect())
}

fn shown(mark: &[u8]) -> String {
    mark.iter().map(|b| format!("{b:02x}")).collect()
}

pub fn run(asked: &Asked, record: &Record, out: &mut dyn Write) -> Result<(), Failure> {
    Ok(writeln!(out, "{}", shown(&asked.bookmark(record)?))?)
}

/// The line of the record that a bookmark leads to.
pub fn marked(asked: &Asked, mark: &[u8], out: &mut dyn Write) -> Result<(), Failure> {
    Ok(out.write_all(&asked.bookmarked(mark)?)?)
}

#[cfg(test)]
mod tests {
    use std::ffi::OsStr;

    use super::{read, shown};

    #[test]
    fn a_bookmark_is_read_as_it_is_shown() {
        let mark: Vec<u8> = (0..24).map(|i| i * 11).collect();
        assert_eq!(read(OsStr::new(&shown(&mark))), Some(mark.clone()));
        assert_eq!(read(OsStr::new(&shown(&mark).to_uppercase())), Some(mark.clone()));
        for word in ["", "00", &"0".repeat(47), &"0".repeat(49), &"g".repeat(48), &"é".repeat(24), &"+1".repeat(24)] {
            assert_eq!(read(OsStr::new(word)), None, "{word}");
        }
    }
}
