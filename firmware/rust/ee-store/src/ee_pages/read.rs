// Made by strip from crates/ee_pages/src/read.rt. Change that file.
// SPDX-License-Identifier: MIT OR Apache-2.0
//! What the slots of a live set say: values, the next live address, how many are
//! live, how many torn.

use crate::ee_pages::batch::{LiveBatch, next_batch};
use crate::ee_pages::find::Layout;
use crate::ee_pages::number::{address_in, gives_value, says_something};
use crate::ee_pages::runs::{RUN, UNREAD};
use crate::ee_pages::side::{Side, first_page, page_slot, set_number, set_slot};
use crate::ee_pages::state::is_torn;
use crate::ee_codec::Address;
use crate::ee_flash::{Flash, HEADER_WORDS, Word};

/// The word in a slot of the live set, by the slot's number, counted from 0 and below the capacity.
/// The layout is the image's.
pub fn slot_word<F: Flash>(flash: &F, layout: &Layout, slot: usize) -> Word {
    set_slot(flash, layout.side, slot)
}

/// The value that a slot of the live set says, by the slot's number, counted from 0 and below the
/// capacity; any number where the slot says none. The layout is the image's.
pub fn slot_value<F: Flash>(flash: &F, layout: &Layout, slot: usize) -> u32 {
    (set_number(flash, layout.side, slot) >> 32) as u32
}

/// The value of an address, `None` if it has none. It reads the slots in runs from the
/// newest down, each once, to the run with the first that says something of the address. The
/// layout is the image's.
///
/// Source: the last element written for an address is its value, AN4894; a forgetting is ours.
pub fn latest<F: Flash>(flash: &F, layout: &Layout, address: Address) -> Option<u32> {
    // Page by page, since finding a slot by its number takes a division.
    let slots = flash.shape().words() - HEADER_WORDS;
    let last = layout.current - first_page(flash, layout.side);
    let mut left = layout.fill;
    for page in (0..last + 1).rev() {
        let before = page * slots;
        if let Some(said) = said_in_page(flash, layout.side, page, left - before, address) {
            return said;
        }
        left = before;
    }
    None
}

/// The next live address above `after`, or of all if `after` is `None`, with its value. `None` if
/// there is none. It looks through the slots once, and once more for each batch of addresses that
/// were all forgotten. The layout is the image's.
pub fn next_live<F: Flash>(
    flash: &F,
    layout: &Layout,
    after: Option<Address>,
) -> Option<(Address, u32)> {
    let mut behind = after;
    let mut batch = LiveBatch::new();
    loop {
        next_batch(flash, layout, behind, &mut batch);
        if let Some(found) = batch.found.get(0) {
            return Some(found);
        }
        let Some(through) = batch.through else {
            return None;
        };
        behind = Some(through);
    }
}

/// How many addresses have a value, 0 to the capacity. It looks through the slots once for each
/// batch of live addresses. The layout is the image's.
pub fn live_count<F: Flash>(flash: &F, layout: &Layout) -> usize {
    let mut count = 0;
    let mut after = None;
    let mut batch = LiveBatch::new();
    loop {
        next_batch(flash, layout, after, &mut batch);
        count += batch.found.len();
        let Some(through) = batch.through else {
            return count;
        };
        after = Some(through);
    }
}

/// How many slots of the live set are torn, 0 to its fill. It reads each slot once. The
/// layout is the image's.
pub fn torn_slots<F: Flash>(flash: &F, layout: &Layout) -> usize {
    let mut torn = 0;
    for page in 0..flash.shape().pages() {
        torn = torn_through(flash, layout.side, page, torn);
    }
    torn
}

/// How many slots are torn up to the end of a page of a set, where this many are torn before it.
/// Page by page, since finding a slot by its number takes a division.
fn torn_through<F: Flash>(flash: &F, side: Side, page: usize, before: usize) -> usize {
    let mut torn = before;
    for slot in 0..flash.shape().words() - HEADER_WORDS {
        if is_torn(page_slot(flash, side, page, slot)) {
            torn += 1;
        }
    }
    torn
}

/// What the first `used` slots of a page of a set say of an address: the newest that says something
/// counts.
fn said_in_page<F: Flash>(
    flash: &F,
    side: Side,
    page: usize,
    used: usize,
    address: Address,
) -> Option<Option<u32>> {
    let here = first_page(flash, side) + page;
    let mut room = [UNREAD; RUN];
    let mut left = used;
    while left > 0 {
        let count = RUN.min(left);
        left -= count;
        let run = flash.run(here, HEADER_WORDS + left, &mut room[..count]);
        let ends = ending_in(run, address);
        if ends > 0 {
            if let Some(said) = said_by(flash, run[ends - 1]) {
                return Some(said);
            }
            left += ends - 1;
        }
    }
    None
}

/// How many of these readings stand up to the last that ends in an address, 0 where none does. It
/// does no more than that, since most end in another one.
#[inline(never)]
fn ending_in(readings: &[u64], address: Address) -> usize {
    let mut left = readings.len();
    while left > 0 && address_in(readings[left - 1]) != address.get() {
        left -= 1;
    }
    left
}

/// What the word of a reading says of the address that this ends in.
pub(crate) fn said_by<F: Flash>(flash: &F, reading: u64) -> Option<Option<u32>> {
    let number = flash.number(reading);
    // Another one ends in another address, as 0 does, the number of a torn word.
    if address_in(number) != address_in(reading) {
        return None;
    }
    said(number)
}

/// What a number says of the address that it ends in: nothing, or that it has a value
/// or none from here on.
pub(crate) fn said(number: u64) -> Option<Option<u32>> {
    if !says_something(number) {
        return None;
    }
    if gives_value(number) {
        Some(Some((number >> 32) as u32))
    } else {
        Some(None)
    }
}
