// Made by strip from crates/ee_codec/src/address.rt. Change that file.
// SPDX-License-Identifier: MIT OR Apache-2.0
//! The name of a variable: any number of 16 bits but the least and the greatest.

/// The name of a variable: a number of 1 to 65534. Addresses are ordered by number.
#[derive(Clone, Copy, Debug, PartialEq, Eq, PartialOrd, Ord, Hash)]
pub struct Address {
    number: u16,
}

impl Address {
    /// The address of this number, or `None` if it is 0 or 65535.
    #[must_use]
    pub const fn new(number: u16) -> Option<Address> {
        if number == 0 || number == u16::MAX {
            return None;
        }
        Some(Address { number })
    }

    /// The number, which is 1 to 65534.
    #[must_use]
    pub const fn get(self) -> u16 {
        self.number
    }
}
