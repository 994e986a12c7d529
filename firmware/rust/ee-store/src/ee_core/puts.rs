// Made by strip from crates/ee_core/src/puts.rt. Change that file.
// SPDX-License-Identifier: MIT OR Apache-2.0
//! Lists of values that are put at once: which addresses they have, and whether one
//! has an address twice.

use crate::ee_core::change::Put;
use crate::ee_codec::Address;
use crate::ee_flash::Flash;
use crate::ee_pages::{Layout, latest, live_count};

/// Whether one of the values is put at the address.
pub(crate) fn has_put(puts: &[Put], address: Address) -> bool {
    for put in puts {
        if put.address == address {
            return true;
        }
    }
    false
}

/// Of what a transfer carries the values that are put: none, where their addresses are forgotten.
pub fn values_put(puts: &[Put], forgets: bool) -> &[Put] {
    if forgets { &[] } else { puts }
}

/// The first entry, counted from 0, whose address an earlier one has.
pub fn first_twice(puts: &[Put]) -> Option<usize> {
    for place in 0..puts.len() {
        if has_put(&puts[..place], puts[place].address) {
            return Some(place);
        }
    }
    None
}

/// How many addresses have a value with these values, each of which is of an address of its own.
pub(crate) fn live_with<F: Flash>(flash: &F, layout: &Layout, puts: &[Put]) -> usize {
    let mut count = live_count(flash, layout);
    for put in puts {
        if latest(flash, layout, put.address).is_none() {
            count += 1;
        }
    }
    count
}
