// Made by strip from crates/ee_records/src/words.rt. Change that file.
// SPDX-License-Identifier: MIT OR Apache-2.0
//! The words of a record: their turns, and their bytes.

use crate::ee_records::check::{bytes_word, check_of, words_for};
use crate::ee_codec::Address;
use crate::ee_core::Variables;

/// How many words a record of so many bytes has: its check, and those of its bytes.
pub(crate) fn words_with(bytes: usize) -> usize {
    words_for(bytes) + 1
}

/// The word of this number of a record that is these bytes: its check, and behind it their words.
pub(crate) fn record_word(bytes: &[u8], word: usize) -> u32 {
    if word == 0 {
        check_of(bytes)
    } else {
        bytes_word(bytes, word - 1)
    }
}

/// The turn of a word.
pub(crate) fn word_turn(turns: u32, word: usize) -> u32 {
    (turns >> (word % 16)) % 2
}

/// The byte of a value at this place, 0 to 3.
fn byte_of(value: u32, place: usize) -> u8 {
    ((value >> (8 * place)) % 256) as u8
}

/// Puts the bytes of a value into the space from this place on, up to the end.
pub(crate) fn put_bytes(space: &mut [u8], from: usize, end: usize, value: u32) {
    for place in 0..4 {
        if from + place < end {
            space[from + place] = byte_of(value, place);
        }
    }
}

/// Whether an address has this value.
pub(crate) fn has_value<V: Variables>(store: &V, address: Address, value: u32) -> bool {
    match store.read(address) {
        Ok(Some(found)) => found == value,
        Ok(None) => false,
        Err(_) => false,
    }
}
