// Made by strip from crates/ee_pages/src/loading.rt. Change that file.
// SPDX-License-Identifier: MIT OR Apache-2.0
//! The values of a list of addresses, by one look through the slots.

use crate::ee_pages::find::Layout;
use crate::ee_pages::number::address_in;
use crate::ee_pages::read::said_by;
use crate::ee_pages::runs::{RUN, UNREAD, run_from};
use crate::ee_pages::side::{Side, first_page};
use crate::ee_codec::Address;
use crate::ee_flash::{Flash, HEADER_WORDS, Word};

/// An address whose value is wanted, and the value that a load finds.
#[derive(Clone, Copy, Debug, PartialEq, Eq)]
pub struct Wanted {
    /// The address.
    pub address: Address,
    /// Its value, `None` if it has none.
    pub value: Option<u32>,
}

/// Gives each entry of a list the value of its address, as `latest` does. It reads each slot of the
/// pages that are in use once, however long the list is. The layout is the image's.
///
/// Source: the last element written for an address is its value, AN4894; the rest is ours.
pub fn load<F: Flash>(flash: &F, layout: &Layout, entries: &mut [Wanted]) {
    let last = layout.current - first_page(flash, layout.side);
    clear_values(entries);
    for page in 0..last + 1 {
        tell_page(flash, layout.side, page, entries);
    }
}

/// Takes the value of each entry away.
fn clear_values(entries: &mut [Wanted]) {
    for at in 0..entries.len() {
        entries[at].value = None;
    }
}

/// Gives the entries what the slots of a page say, which stand behind those of the pages before.
fn tell_page<F: Flash>(flash: &F, side: Side, page: usize, entries: &mut [Wanted]) {
    let here = first_page(flash, side) + page;
    let words = flash.shape().words();
    let mut room = [UNREAD; RUN];
    let mut at = HEADER_WORDS;
    while at < words {
        let run = run_from(flash, here, at, words, &mut room);
        at += run.len();
        tell_run(flash, run, entries);
    }
}

/// Gives the entries what the words of these readings say.
fn tell_run<F: Flash>(flash: &F, readings: &[u64], entries: &mut [Wanted]) {
    for at in 0..entries.len() {
        if let Some(said) = said_in(flash, readings, entries[at].address) {
            entries[at].value = said;
        }
    }
}

/// What the words of these readings say of an address: the last that says something counts.
fn said_in<F: Flash>(flash: &F, readings: &[u64], address: Address) -> Option<Option<u32>> {
    let mut left = readings.len();
    while left > 0 {
        left -= 1;
        if address_in(readings[left]) == address.get() {
            let said = said_by(flash, readings[left]);
            if said.is_some() {
                return said;
            }
        }
    }
    None
}
