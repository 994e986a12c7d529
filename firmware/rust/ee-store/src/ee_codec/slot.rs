// Made by strip from crates/ee_codec/src/slot.rt. Change that file.
// SPDX-License-Identifier: MIT OR Apache-2.0
//! The words of a slot: an address has a value from there on, or has none.

use super::address::Address;
use crate::ee_flash::Word;

/// What a word says in the place of a slot.
#[derive(Clone, Copy, Debug, PartialEq, Eq)]
pub enum Slot {
    /// Nothing was programmed yet.
    Free,
    /// A torn word: it holds nothing and can't be programmed again.
    Spoiled,
    /// The address has the value from here on.
    Element { address: Address, value: u32 },
    /// The address has no value from here on. The value is the one forgotten, and means nothing.
    Forgotten { address: Address, value: u32 },
    /// A number that spells neither.
    Foreign,
}

/// The word that says that `address` has `value`: the value in the high 32 bits, zero in the middle
/// 16, the address in the low 16. Ours, as is every word of this crate.
pub fn element_word(address: Address, value: u32) -> u64 {
    u64::from(value) << 32 | u64::from(address.get())
}

/// The word that says that `address` has no value. It keeps the `value` forgotten in its high 32
/// bits, and has 1 in the middle 16.
pub fn forget_word(address: Address, value: u32) -> u64 {
    element_word(address, value) + (1 << 16)
}

/// Reads a word in the place of a slot: the inverse of `element_word` and `forget_word`, and
/// nothing else reads as an element or a forgetting.
pub fn read_slot(word: Word) -> Slot {
    match word {
        Word::Erased => Slot::Free,
        Word::Torn => Slot::Spoiled,
        Word::Held(number) => read_held(number),
    }
}

/// Whether a word ends in this address. Where it doesn't, it is neither an element nor a forgetting
/// of the address, and need not be read as a slot.
pub fn ends_in(word: Word, address: Address) -> bool {
    // All ones end in no address.
    let number = match word {
        Word::Held(number) => number,
        _ => u64::MAX,
    };
    number & 0xffff == u64::from(address.get())
}

/// Reads a number in the place of a slot.
fn read_held(number: u64) -> Slot {
    let value = (number >> 32) as u32;
    let kind = (number >> 16) & 0xffff;
    let address = (number & 0xffff) as u16;
    match (Address::new(address), kind) {
        (Some(address), 0) => Slot::Element { address, value },
        (Some(address), 1) => Slot::Forgotten { address, value },
        _ => Slot::Foreign,
    }
}
