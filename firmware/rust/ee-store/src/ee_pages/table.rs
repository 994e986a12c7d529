// Made by strip from crates/ee_pages/src/table.rt. Change that file.
// SPDX-License-Identifier: MIT OR Apache-2.0
//! Which word may stand in which place of a live set: what makes an image legal.

use crate::ee_pages::state::is_written;
use crate::ee_codec::{MARK, MarkRead, Slot, read_mark, read_slot, receive_word};
use crate::ee_flash::Word;

/// The places of a live set, by what may stand in them.
#[derive(Clone, Copy)]
pub(crate) enum Place {
    /// The first page's receive and active words, which commit the set.
    Committing,
    /// The receive word of a further page.
    Receiving,
    /// A further page's active word, and any page's valid word.
    Marking,
    /// Any page's erasing word.
    Erasing,
    /// Any word behind a header.
    InSlot,
}

/// The place of a word of a set.
pub(crate) fn place_of(page: usize, at: usize) -> Place {
    if at > 3 {
        Place::InSlot
    } else if at == 3 {
        Place::Erasing
    } else if at == 2 {
        Place::Marking
    } else if page == 0 {
        Place::Committing
    } else if at == 1 {
        Place::Marking
    } else {
        Place::Receiving
    }
}

/// Whether the word may stand in the place of a live set of this generation. It stands in
/// each of its callers, so that an opening has the same code in firmware whether bad words
/// are counted or not.
#[inline(always)]
pub(crate) fn fits(generation: u32, place: Place, word: Word) -> bool {
    match place {
        Place::Committing => true,
        Place::Receiving => match word {
            Word::Held(number) => number == receive_word(generation),
            _ => true,
        },
        Place::Marking => !matches!(read_mark(word), MarkRead::Foreign),
        Place::Erasing => !is_written(word),
        Place::InSlot => !matches!(read_slot(word), Slot::Foreign),
    }
}

/// Whether the word may stand in this place of the header of a page of a live set of this
/// generation, but for the two that commit the set. It does so exactly where `fits` does.
pub(crate) fn fits_header(generation: u32, at: usize, word: Word) -> bool {
    let expected = if at == 0 {
        receive_word(generation)
    } else {
        MARK
    };
    match word {
        Word::Erased => true,
        Word::Torn => at < 3,
        Word::Held(number) => at < 3 && number == expected,
    }
}
