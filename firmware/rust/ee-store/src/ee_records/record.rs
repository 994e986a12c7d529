// Made by strip from crates/ee_records/src/record.rt. Change that file.
// SPDX-License-Identifier: MIT OR Apache-2.0
//! Where a record stands: its base address, its room, and the two addresses of each word.

use crate::ee_codec::Address;

/// A record: bytes of up to so many words of four, in the variables from a base address on.
#[derive(Clone, Copy, Debug)]
pub struct Record {
    base: Address,
    words: u16,
}

impl Record {
    /// The record at this base address, with room for so many words of four bytes, 16383 at the
    /// most. It takes the base address and the `2 * words + 2` behind it. `None` if the last of
    /// them is above 65534, or there are more words.
    pub fn new(base: Address, words: u16) -> Option<Record> {
        let last = u32::from(base.get()) + 2 * (u32::from(words) + 1);
        if last > 65534 || words > 16383 {
            return None;
        }
        Some(Record { base, words })
    }

    /// The address of its head.
    pub fn base(&self) -> Address {
        self.base
    }

    /// How many bytes it takes at the most.
    pub fn capacity(&self) -> usize {
        4 * usize::from(self.words)
    }

    /// The address of a word of it, by the word's turn.
    pub(crate) fn place(&self, word: usize, turn: u32) -> Address {
        let number = self.base.get() + 1 + 2 * word as u16 + turn as u16;
        match Address::new(number) {
            Some(address) => address,
            None => self.base,
        }
    }
}
