// Made by strip from crates/ee_pages/src/number.rt. Change that file.
// SPDX-License-Identifier: MIT OR Apache-2.0
//! What the number of a word says in the place of a slot.

/// Whether a number is that of an element or a forgetting.
pub(crate) fn is_slot(number: u64) -> bool {
    // One comparison for an address that is neither 0 nor 65535, since 0 wraps.
    address_in(number).wrapping_sub(1) < u16::MAX - 1 && says_something(number)
}

/// The address in the number of an element or a forgetting.
pub(crate) fn address_in(number: u64) -> u16 {
    (number & 0xffff) as u16
}

/// Whether a number with an address is that of an element or a forgetting.
pub(crate) fn says_something(number: u64) -> bool {
    (number >> 16) & 0xffff < 2
}

/// Whether the number of an element or a forgetting gives its address a value.
pub(crate) fn gives_value(number: u64) -> bool {
    (number >> 16) & 0xffff == 0
}
