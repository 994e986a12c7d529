// Made by strip from crates/ee_index/src/entering.rt. Change that file.
// SPDX-License-Identifier: MIT OR Apache-2.0
//! What used slots say goes into an index.

use crate::ee_index::listing::Listing;
use crate::ee_codec::{Slot, read_slot};
use crate::ee_core::NoMemory;
use crate::ee_flash::Flash;
use crate::ee_pages::{Layout, slot_word};

/// Makes a list with no address the index of a live set: one look at each used slot. An `Err`
/// leaves some addresses in it, and tells that its room, if that is known, is too small.
pub(crate) fn enter_slots<F: Flash, L: Listing>(
    list: &mut L,
    flash: &F,
    layout: &Layout,
) -> Result<(), NoMemory> {
    for number in 0..layout.fill {
        enter(list, number, read_slot(slot_word(flash, layout, number)))?;
    }
    Ok(())
}

/// Enters what the slot of this number says.
fn enter<L: Listing>(list: &mut L, number: usize, said: Slot) -> Result<(), NoMemory> {
    match said {
        Slot::Element { address, .. } => {
            list.insert(address, number)?;
        }
        Slot::Forgotten { address, .. } => {
            list.remove(address);
        }
        _ => {}
    }
    Ok(())
}
