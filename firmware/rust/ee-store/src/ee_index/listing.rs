// Made by strip from crates/ee_index/src/listing.rt. Change that file.
// SPDX-License-Identifier: MIT OR Apache-2.0
//! What an index is kept in: a list of addresses with their slots, by rising address.

use crate::ee_index::entries::Entry;
use crate::ee_codec::Address;
use crate::ee_core::{NoMemory, Put};

/// A list of addresses with their slots, counted from 0, by rising address. Each kind of memory
/// has one of its own.
pub(crate) trait Listing {
    /// The addresses with their slots, by rising address.
    fn entries(&self) -> &[Entry];

    /// The place of an address, counted from 0. An `Err` has the place where it would stand.
    fn find(&self, address: Address) -> Result<usize, usize>;

    /// Gives an address the slot of this number. An `Err`, which only a new address meets, leaves
    /// the list as it was. Where its room is known, that is full then.
    fn insert(&mut self, address: Address, number: usize) -> Result<(), NoMemory>;

    /// Takes an address from it.
    fn remove(&mut self, address: Address);

    /// Gives its addresses, which are those that are live behind a transfer, the slots in which the
    /// transfer put them: the values that it put stand first, in their order, and behind them the
    /// others, by rising address. It takes no memory and doesn't look at the flash.
    fn renumber(&mut self, puts: &[Put]);
}
