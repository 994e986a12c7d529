// Made by strip from crates/ee_nor/src/coded/words.rt. Change that file.
// SPDX-License-Identifier: MIT OR Apache-2.0
//! A number of a store as a coded word, and the word that a number of the flash is.

use crate::ee_nor::coded::code::low_half;
use crate::ee_flash::{Shape, Word};

/// Both halves of the mark, and the high half of all that stands in a header.
const HEADER_HALF: u32 = 0xAAAA_AAAA;

/// The mark, which is that of a store of plain words too.
pub(crate) const MARK: u64 = 0xAAAA_AAAA_AAAA_AAAA;

/// The coded word of a number on a device of this shape: of a number that a store writes, else of
/// some other. The mark says the shape.
pub fn coded_number(shape: Shape, number: u64) -> u64 {
    let (low, value) = payload_of(shape, number);
    u64::from(value) * 0x1_0000_0000 + u64::from(low_half(low, value))
}

/// The word that a reading is on a device of this shape: torn where there is none, erased where it
/// is `u64::MAX`, held where it is the coded word of a number; else torn, as the mark of another
/// shape is.
pub fn word_of_reading(shape: Shape, reading: Option<u64>) -> Word {
    let Some(number) = reading else {
        return Word::Torn;
    };
    let value = (number >> 32) as u32;
    let low = (number & 0xffff_ffff) as u32;
    let rest = low & 0x1_ffff;
    if low_half(rest, value) != low {
        return erased_or_torn(number);
    }
    // A slot's number stands in its word as it is, so nothing more is asked of it.
    if rest & 0xffff > 0 {
        return Word::Held(without_check(number));
    }
    header_word(shape, rest, value)
}

/// The word of a number that isn't coded.
fn erased_or_torn(number: u64) -> Word {
    if number == u64::MAX {
        Word::Erased
    } else {
        Word::Torn
    }
}

/// A number of the flash with zeros where a coded word has its check.
pub(crate) fn without_check(number: u64) -> u64 {
    number - (number & 0xffff_ffff) + (number & 0x1_ffff)
}

/// The word of a payload with no address, which is a value and the 17 bits below it: held where it
/// is a number's.
fn header_word(shape: Shape, low: u32, value: u32) -> Word {
    if low > 0 {
        return if value == mark_value(shape) {
            Word::Held(MARK)
        } else {
            Word::Torn
        };
    }
    if is_slot_half(value) || value == HEADER_HALF {
        Word::Torn
    } else {
        Word::Held(u64::from(HEADER_HALF) * 0x1_0000_0000 + u64::from(value))
    }
}

/// The payload of a number: the 17 bits below its value, and the value.
fn payload_of(shape: Shape, number: u64) -> (u32, u32) {
    let low = (number & 0xffff_ffff) as u32;
    if is_slot_half(low) {
        return (low, (number >> 32) as u32);
    }
    if low == HEADER_HALF {
        return (0x1_0000, mark_value(shape));
    }
    (0, low)
}

/// Whether a number is a slot's, by its low half.
fn is_slot_half(low: u32) -> bool {
    low < 0x2_0000 && low & 0xffff > 0
}

/// The value of the mark.
pub(crate) fn mark_value(shape: Shape) -> u32 {
    shape.pages() as u32 * 0x1_0000 + shape.words() as u32
}
