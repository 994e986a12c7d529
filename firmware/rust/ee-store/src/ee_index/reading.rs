// Made by strip from crates/ee_index/src/reading.rt. Change that file.
// SPDX-License-Identifier: MIT OR Apache-2.0
//! What is read by an index.

use crate::ee_index::entries::Entry;
use crate::ee_index::listing::Listing;
use crate::ee_codec::Address;
use crate::ee_core::Put;
use crate::ee_core::inner::LiveCursor;
use crate::ee_flash::Flash;
use crate::ee_pages::{Batch, Layout, LiveBatch, slot_value};

/// The slot of an address, if a list has it.
pub(crate) fn slot_in<L: Listing>(list: &L, address: Address) -> Option<usize> {
    match list.find(address) {
        Ok(place) => match list.entries().get(place) {
            Some(entry) => Some(usize::from(entry.1)),
            None => None,
        },
        Err(_) => None,
    }
}

/// Whether a list has an address.
pub(crate) fn has<L: Listing>(list: &L, address: Address) -> bool {
    list.find(address).is_ok()
}

/// The entries of the addresses above `after`, or all if `after` is `None`.
fn entries_above<L: Listing>(list: &L, after: Option<Address>) -> &[Entry] {
    let entries = list.entries();
    let Some(address) = after else {
        return entries;
    };
    &entries[place_above(list, address)..]
}

/// The place of the first entry of an address above this one, counted from 0.
fn place_above<L: Listing>(list: &L, address: Address) -> usize {
    match list.find(address) {
        Ok(place) => place + 1,
        Err(place) => place,
    }
}

/// How many of these values, each of which is of an address of its own, are of addresses that an
/// index doesn't have.
pub(crate) fn count_new<L: Listing>(list: &L, puts: &[Put]) -> usize {
    let mut count = 0;
    for put in puts {
        count += !has(list, put.address) as usize;
    }
    count
}

/// The value that the slot of this number says, any number if it says none.
pub(crate) fn value_in<F: Flash>(flash: &F, layout: &Layout, number: usize) -> u32 {
    slot_value(flash, layout, number)
}

/// The value of an address, by an index of the live set. `None` if it has none.
pub(crate) fn value_indexed<F: Flash, L: Listing>(
    list: &L,
    flash: &F,
    layout: &Layout,
    address: Address,
) -> Option<u32> {
    match slot_in(list, address) {
        None => None,
        Some(number) => Some(value_in(flash, layout, number)),
    }
}

/// The first address of an index above `after`, or of all if `after` is `None`, with its slot.
fn first_above<L: Listing>(list: &L, after: Option<Address>) -> Option<(Address, usize)> {
    let Some((entry, _)) = entries_above(list, after).split_first() else {
        return None;
    };
    Some((entry.0, usize::from(entry.1)))
}

/// The next live address above `after`, or the first of all if `after` is `None`, with its value,
/// by an index of the live set.
pub(crate) fn next_indexed<F: Flash, L: Listing>(
    list: &L,
    flash: &F,
    layout: &Layout,
    after: Option<Address>,
) -> Option<(Address, u32)> {
    let Some((address, number)) = first_above(list, after) else {
        return None;
    };
    Some((address, value_in(flash, layout, number)))
}

/// The next live addresses above `after`, or the first of all if `after` is `None`, with their
/// values, by an index of the live set: as many as a batch takes.
pub(crate) fn batch_indexed<F: Flash, L: Listing>(
    list: &L,
    flash: &F,
    layout: &Layout,
    after: Option<Address>,
) -> LiveBatch {
    let mut found = Batch::new();
    let mut behind = after;
    // One search finds where the batch begins, and each further address stands behind the last.
    let mut entries = entries_above(list, after);
    while !found.is_full() {
        let Some((entry, rest)) = entries.split_first() else {
            return LiveBatch {
                found,
                through: None,
            };
        };
        found.push(entry.0, value_in(flash, layout, usize::from(entry.1)));
        behind = Some(entry.0);
        entries = rest;
    }
    LiveBatch {
        found,
        through: behind,
    }
}

/// Goes over the live addresses by an index. A hidden address, which has no value
/// yet, is passed over.
pub(crate) struct IndexCursor<'a> {
    /// The entries that are left.
    entries: &'a [Entry],
    /// The address given last.
    after: Option<Address>,
    /// How many slots are used.
    fill: usize,
}

impl<'a> IndexCursor<'a> {
    /// Before the first.
    pub(crate) fn new<L: Listing>(list: &'a L, fill: usize) -> IndexCursor<'a> {
        IndexCursor {
            entries: list.entries(),
            after: None,
            fill,
        }
    }
}

impl<'a> LiveCursor for IndexCursor<'a> {
    fn next<F: Flash>(&mut self, flash: &F, layout: &Layout) -> Option<(Address, u32)> {
        let Some((entry, rest)) = next_shown(self.entries, self.fill) else {
            return None;
        };
        self.entries = rest;
        self.after = Some(entry.0);
        Some((entry.0, value_in(flash, layout, usize::from(entry.1))))
    }
}

/// The next entry whose slot is one of those used, of which there are so many, and
/// what is left behind it.
fn next_shown(entries: &[Entry], fill: usize) -> Option<(Entry, &[Entry])> {
    let mut left = entries;
    while let Some((entry, rest)) = left.split_first() {
        if usize::from(entry.1) < fill {
            return Some((*entry, rest));
        }
        left = rest;
    }
    None
}
