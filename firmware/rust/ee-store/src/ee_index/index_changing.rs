// Made by strip from crates/ee_index/src/index_changing.rt. Change that file.
// SPDX-License-Identifier: MIT OR Apache-2.0
//! Changes with an index: room in it is made before the first step, and it follows without memory.

use crate::ee_index::listing::Listing;
use crate::ee_index::reading::{IndexCursor, has};
use crate::ee_codec::Address;
use crate::ee_core::inner::{Change, append_change, move_changes, values_put};
use crate::ee_core::{NoMemory, Put};
use crate::ee_flash::{Cut, Flash};
use crate::ee_pages::Layout;

/// Enters each new address of these values with this number. An `Err`, which only a new address
/// meets, leaves some of them entered. Where the room is known, it was too small for them all.
pub(crate) fn enter_hidden<L: Listing>(
    list: &mut L,
    puts: &[Put],
    fill: usize,
) -> Result<(), NoMemory> {
    for put in puts {
        enter_new(list, put.address, fill)?;
    }
    Ok(())
}

/// Enters an address with this number, if it is new. An `Err`, which only a new address meets,
/// leaves the index as it was. Where its room is known, that is full then.
fn enter_new<L: Listing>(list: &mut L, address: Address, number: usize) -> Result<(), NoMemory> {
    if has(list, address) {
        return Ok(());
    }
    list.insert(address, number)?;
    Ok(())
}

/// Makes a change to which no refusal applies in the first free slot. In the index an address that
/// is put has that slot already. The layout and the index follow, and that takes no memory.
pub(crate) fn append_indexed<F: Flash, L: Listing>(
    flash: &mut F,
    layout: &mut Layout,
    list: &mut L,
    change: Change,
) -> Result<(), Cut> {
    append_change(flash, layout, change)?;
    leave_forgotten(list, &change);
    Ok(())
}

/// Makes changes to which no refusal applies with a transfer that goes over the live addresses
/// by the index: values that are put, or the forgettings of their addresses. An address that is
/// put is in the index, and hidden if it has no value yet. The layout and the index follow, and
/// that takes no memory.
pub(crate) fn move_indexed<F: Flash, L: Listing>(
    flash: &mut F,
    layout: &mut Layout,
    list: &mut L,
    puts: &[Put],
    forgets: bool,
) -> Result<(), Cut> {
    let mut cursor = IndexCursor::new(list, layout.fill);
    move_changes(flash, layout, puts, forgets, &mut cursor)?;
    follow(list, puts, forgets);
    Ok(())
}

/// Lets an index follow a transfer: the addresses that are forgotten leave it, and the others get
/// the slots in which the transfer put them.
pub(crate) fn follow<L: Listing>(list: &mut L, puts: &[Put], forgets: bool) {
    let put = values_put(puts, forgets);
    // Where values are put none is forgotten, and the other way round.
    let forgotten = values_put(puts, !forgets);
    leave_all(list, forgotten);
    list.renumber(put);
}

/// Takes the addresses of these values from an index.
fn leave_all<L: Listing>(list: &mut L, puts: &[Put]) {
    for put in puts {
        leave(list, put.address);
    }
}

/// Takes an address from an index.
fn leave<L: Listing>(list: &mut L, address: Address) {
    list.remove(address);
}

/// Takes an address that is forgotten from an index.
pub(crate) fn leave_forgotten<L: Listing>(list: &mut L, change: &Change) {
    if let Change::Forget { address, .. } = *change {
        leave(list, address);
    }
}
