//! The object checksum and the name hash, as document 01 states them, and the sum of a partition table.

const MODULUS: u64 = 0xffff_ffff;
const CASTAGNOLI: u32 = 0x82f6_3b78;
/// Of IEEE 802.3.
const ETHERNET: u32 = 0xedb8_8320;

/// What the first 8 bytes of an object must hold.
pub fn checksum(object: &[u8]) -> u64 {
    let (mut s1, mut s2) = (0u64, 0u64);
    // 4,096 words keep both sums below 2^57.
    for part in object[8..].chunks(4 * 4096) {
        for word in part.chunks_exact(4) {
            s1 += u64::from(u32::from_le_bytes([word[0], word[1], word[2], word[3]]));
            s2 += s1;
        }
        s1 %= MODULUS;
        s2 %= MODULUS;
    }
    let c1 = MODULUS - (s1 + s2) % MODULUS;
    let c2 = MODULUS - (s1 + c1) % MODULUS;
    c2 << 32 | c1
}

/// The register after the bytes, bit by bit.
fn shifted(polynomial: u32, mut crc: u32, bytes: &[u8]) -> u32 {
    for &b in bytes {
        crc ^= u32::from(b);
        for _ in 0..8 {
            crc = if crc & 1 == 1 { crc >> 1 ^ polynomial } else { crc >> 1 };
        }
    }
    crc
}

pub fn crc32c(crc: u32, bytes: &[u8]) -> u32 {
    shifted(CASTAGNOLI, crc, bytes)
}

pub fn crc32(bytes: &[u8]) -> u32 {
    !shifted(ETHERNET, !0, bytes)
}

/// The low 22 bits of the hash of a name's characters. Ill-formed names go by their lossy reading.
pub fn name_hash(name: &[u8], insensitive: bool) -> u32 {
    let text = String::from_utf8_lossy(name);
    let text = if insensitive { text.to_lowercase() } else { text.into_owned() };
    let crc = text.chars().fold(!0, |crc, c| crc32c(crc, &u32::from(c).to_le_bytes()));
    crc & 0x3f_ffff
}
