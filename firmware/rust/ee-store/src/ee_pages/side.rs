// Made by strip from crates/ee_pages/src/side.rt. Change that file.
// SPDX-License-Identifier: MIT OR Apache-2.0
//! The two sets of a device, and the places of their pages, words and slots.

use crate::ee_codec::{MARK, read_receive};
use crate::ee_flash::{Flash, HEADER_WORDS, Word};

/// How many words commit a set: the first ones of its first page.
const COMMITTING: usize = 2;

/// One of the two sets of pages.
///
/// Source: two sets, AN4894.
#[derive(Clone, Copy, Debug, PartialEq, Eq)]
pub enum Side {
    /// The pages from 0 on.
    First,
    /// The pages behind those.
    Second,
}

impl Side {
    /// The other of the two sets.
    pub fn other(self) -> Side {
        match self {
            Side::First => Side::Second,
            Side::Second => Side::First,
        }
    }
}

/// The number, in the device, of a set's first page.
pub fn first_page<F: Flash>(flash: &F, side: Side) -> usize {
    match side {
        Side::First => 0,
        Side::Second => flash.shape().pages(),
    }
}

/// The word at a place of a page of a set.
pub(crate) fn set_word<F: Flash>(flash: &F, side: Side, page: usize, at: usize) -> Word {
    flash.word(first_page(flash, side) + page, at)
}

/// The slot of this number of a page of a set, both counted from 0.
pub(crate) fn page_slot<F: Flash>(flash: &F, side: Side, page: usize, slot: usize) -> Word {
    set_word(flash, side, page, HEADER_WORDS + slot)
}

/// The slot of this number of a set, counted from 0.
pub(crate) fn set_slot<F: Flash>(flash: &F, side: Side, slot: usize) -> Word {
    let slots = flash.shape().words() - HEADER_WORDS;
    page_slot(flash, side, slot / slots, slot % slots)
}

/// The number of the slot of this number of a page of a set, both counted from 0: it says
/// what the slot says.
fn page_number<F: Flash>(flash: &F, side: Side, page: usize, slot: usize) -> u64 {
    let mut room = [0; 1];
    let run = flash.run(
        first_page(flash, side) + page,
        HEADER_WORDS + slot,
        &mut room,
    );
    flash.number(run[0])
}

/// The number of the slot of this number of a set, counted from 0: it says what the slot says.
pub(crate) fn set_number<F: Flash>(flash: &F, side: Side, slot: usize) -> u64 {
    let slots = flash.shape().words() - HEADER_WORDS;
    page_number(flash, side, slot / slots, slot % slots)
}

/// The generation with which a set is committed.
pub(crate) fn committed<F: Flash>(flash: &F, side: Side) -> Option<u32> {
    let mut room = [1; COMMITTING];
    let run = flash.run(first_page(flash, side), 0, &mut room[..COMMITTING]);
    // The number of a torn word is 0, of an erased one all ones: no mark and no receive word.
    if flash.number(run[1]) == MARK {
        read_receive(Word::Held(flash.number(run[0])))
    } else {
        None
    }
}
