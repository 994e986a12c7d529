// Made by strip from crates/ee_records/src/check.rt. Change that file.
// SPDX-License-Identifier: MIT OR Apache-2.0
//! The words of bytes, the lowest byte first, and the check of a record: CRC-32 over its length and
//! these words.

/// The polynomial of IEEE 802.3, its highest term in the lowest bit.
const POLYNOMIAL: u32 = 0xEDB8_8320;

/// How many words so many bytes take.
pub(crate) fn words_for(bytes: usize) -> usize {
    (bytes + 3) / 4
}

/// The byte at this place, 0 behind the end.
fn byte_at(bytes: &[u8], at: usize) -> u32 {
    if at < bytes.len() {
        u32::from(bytes[at])
    } else {
        0
    }
}

/// The word of this number, with zeros behind the last byte.
pub(crate) fn bytes_word(bytes: &[u8], word: usize) -> u32 {
    let at = 4 * word;
    byte_at(bytes, at)
        + 256 * byte_at(bytes, at + 1)
        + 65536 * byte_at(bytes, at + 2)
        + 16777216 * byte_at(bytes, at + 3)
}

/// A remainder, a word further.
fn word_further(before: u32, word: u32) -> u32 {
    let mut rest = before ^ word;
    for _bit in 0..32_u32 {
        rest = if rest % 2 == 1 {
            (rest / 2) ^ POLYNOMIAL
        } else {
            rest / 2
        };
    }
    rest
}

/// The check of these bytes.
pub(crate) fn check_of(bytes: &[u8]) -> u32 {
    let mut rest = word_further(u32::MAX, bytes.len() as u32);
    for word in 0..words_for(bytes.len()) {
        rest = word_further(rest, bytes_word(bytes, word));
    }
    u32::MAX - rest
}
