// Made by strip from crates/ee_core/src/change.rt. Change that file.
// SPDX-License-Identifier: MIT OR Apache-2.0
//! A change of the map, and the word that spells it; a value that is put with others.

use crate::ee_codec::{Address, element_word, forget_word};

/// A value that an address gets. It is laid out as in C, so that a list of C's can be one of these.
#[derive(Clone, Copy, Debug, PartialEq, Eq)]
#[repr(C)]
pub struct Put {
    /// The address.
    pub address: Address,
    /// Its value from here on.
    pub value: u32,
}

/// A change of the map.
#[derive(Clone, Copy, Debug, PartialEq, Eq)]
pub enum Change {
    /// The address has the value from here on.
    Put { address: Address, value: u32 },
    /// The address has no value from here on. The value is the one forgotten.
    Forget { address: Address, value: u32 },
}

impl Change {
    /// The number of the word that spells it, below `u64::MAX`.
    pub(crate) fn word(self) -> u64 {
        match self {
            Change::Put { address, value } => element_word(address, value),
            Change::Forget { address, value } => forget_word(address, value),
        }
    }
}
