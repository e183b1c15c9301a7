//! The refusals' numbers in words.

/// Images over so many bytes are refused.
pub const LARGEST_IMAGE: u64 = 1 << 34;

pub fn words(number: u64) -> &'static str {
    match number {
        1 => "the image ends too soon",
        2 => "the image is corrupt",
        3 => "this is not supported",
        4 => "there is no such thing",
        5 => "the path is not UTF-8",
        6 => "the buffer is too short",
        7 => "the image is over 2^34 bytes",
        8 => "a number in the image is too large to go on with",
        9 => "a name has a character that is not covered",
        10 => "the tree is too deep",
        11 => "there is neither an APFS container nor an intact partition table",
        12 => "the partition table has no APFS partition that lies in the image",
        13 => "no checkpoint has that number",
        14 => "the listing is longer than 4,294,967,295 bytes",
        15 => "the text is not a listing that can be stored",
        16 => "the listing contradicts itself",
        17 => "the image does not fit",
        18 => "the seed is 0, or the number of nodes is not 1 to 64",
        _ => "unknown refusal",
    }
}

/// What whoever reads an image can do about it.
pub fn advice(number: u64) -> &'static str {
    match number {
        1 => "copy the stick again, whole",
        2 | 8 => "copy the stick again, or have a Mac repair it",
        3 => "compressed files, encrypted and sealed volumes, and Fusion drives are not read",
        4 => "`apfs ls` shows what is there",
        5 => "give the path in UTF-8",
        6 => "it is longer than the room for one answer",
        7 => "give the image of one APFS partition of at most 16 GiB",
        9 => "give each name letter for letter as `apfs ls` shows it",
        10 => "`apfs ls` and `apfs cat` read what lies deeper than 64 directories",
        11 => "give the image of a whole stick with a GUID partition table, or of an APFS partition from its first byte on",
        12 => "copy the stick again, whole; a stick without an APFS partition is not read",
        13 => "`apfs checkpoints` shows the numbers that are there",
        14 => "read the volume file by file",
        15 => "give a listing as it was written",
        16 => "give each id and stream one content, and the entries in the order of their keys",
        17 => "give a longer buffer, or a smaller listing",
        18 => "give another seed, and 1 to 64 nodes",
        _ => "report it",
    }
}

/// The same where a checkpoint was asked for: to repair a stick is to write on it, over what is left of earlier ones.
pub fn advice_at(number: u64) -> &'static str {
    match number {
        2 | 8 => "copy the stick again, or try another checkpoint: what this one held may have been written over",
        _ => advice(number),
    }
}
