// Made by strip from crates/ee_index/src/entries.rt. Change that file.
// SPDX-License-Identifier: MIT OR Apache-2.0
//! The entries of an index: addresses with the slots in which they stand, by rising address.

use crate::ee_codec::Address;
use crate::ee_core::Put;

/// An address with the number of its slot, in four bytes. A set has at most 32512 slots.
pub type Entry = (Address, u16);

/// The place of the entry of an address, counted from 0. An `Err` has the place
/// where one would stand.
pub(crate) fn search(entries: &[Entry], address: Address) -> Result<usize, usize> {
    entries.binary_search_by_key(&address, |entry| entry.0)
}

/// Gives entries the slots in which a transfer puts their addresses: the values that it puts stand
/// first, in their order, and behind them the others, by rising address.
pub(crate) fn renumber(entries: &mut [Entry], puts: &[Put]) {
    let mut number = puts.len();
    for place in 0..entries.len() {
        let address = entries[place].0;
        let (slot, next) = next_number(number, puts, address);
        entries[place] = (address, slot as u16);
        number = next;
    }
}

/// The slot of the next address, and the number that the next other one gets: an address that is
/// put has its place in the list, and each other takes a number.
fn next_number(number: usize, puts: &[Put], address: Address) -> (usize, usize) {
    match place_in(puts, address) {
        Some(place) => (place, number),
        None => (number, number + 1),
    }
}

/// The place of an address in a list, counted from 0.
fn place_in(puts: &[Put], address: Address) -> Option<usize> {
    for place in 0..puts.len() {
        if puts[place].address == address {
            return Some(place);
        }
    }
    None
}
