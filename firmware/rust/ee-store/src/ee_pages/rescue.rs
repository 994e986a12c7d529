// Made by strip from crates/ee_pages/src/rescue.rt. Change that file.
// SPDX-License-Identifier: MIT OR Apache-2.0
//! Which set of a device with any words whatever is rescued, and how many of its words are bad.

use crate::ee_pages::side::{Side, committed, page_slot, set_word};
use crate::ee_pages::state::{is_torn, is_written};
use crate::ee_pages::table::{fits, place_of};
use crate::ee_codec::{MarkRead, read_mark, read_receive};
use crate::ee_flash::{Flash, HEADER_WORDS, Shape, Word};

/// The set that is rescued, of any device. `None` where no set is begun.
pub fn rescued_side<F: Flash>(flash: &F) -> Option<Side> {
    let first = has_begun(flash, Side::First);
    let second = has_begun(flash, Side::Second);
    if !(first || second) {
        return None;
    }
    if let Some(side) = only(first, second) {
        return Some(side);
    }
    let first_left = is_left_behind(flash, Side::First);
    let second_left = is_left_behind(flash, Side::Second);
    if let Some(side) = only(!first_left, !second_left) {
        return Some(side);
    }
    let first_commits = committed(flash, Side::First).is_some();
    let second_commits = committed(flash, Side::Second).is_some();
    if let Some(side) = only(first_commits, second_commits) {
        return Some(side);
    }
    let first_generation = named_generation(flash, Side::First);
    let second_generation = named_generation(flash, Side::Second);
    if first_generation < second_generation {
        Some(Side::Second)
    } else {
        Some(Side::First)
    }
}

/// The generation that a set names, of any device: that of its first receive word that can be read,
/// by page, and 1 where none can.
pub fn named_generation<F: Flash>(flash: &F, side: Side) -> u32 {
    for page in 0..flash.shape().pages() {
        if let Some(generation) = read_receive(set_word(flash, side, page, 0)) {
            return generation;
        }
    }
    1
}

/// How many words of the set that is rescued are bad: they can't be read, or may not stand where
/// they stand. 0 to the words of a set, and 0 where no set is begun.
pub fn bad_words<F: Flash>(flash: &F) -> usize {
    match rescued_side(flash) {
        None => 0,
        Some(side) => bad_in_set(flash, side),
    }
}

/// How many words of a set are bad.
fn bad_in_set<F: Flash>(flash: &F, side: Side) -> usize {
    let generation = named_generation(flash, side);
    let written = written_front(flash, side);
    let mut bad = 0;
    for page in 0..flash.shape().pages() {
        bad += bad_in_page(flash, side, generation, written, page);
    }
    bad
}

/// How many words of a page of a set are bad.
fn bad_in_page<F: Flash>(
    flash: &F,
    side: Side,
    generation: u32,
    written: usize,
    page: usize,
) -> usize {
    let shape = flash.shape();
    let mut bad = 0;
    for at in 0..shape.words() {
        if is_bad(
            shape,
            generation,
            written,
            page,
            at,
            set_word(flash, side, page, at),
        ) {
            bad += 1;
        }
    }
    bad
}

/// Whether a word of a set can't be read, or may not stand in its place: `written` slots stand
/// before the first erased one.
pub(crate) fn is_bad(
    shape: Shape,
    generation: u32,
    written: usize,
    page: usize,
    at: usize,
    word: Word,
) -> bool {
    let before = page * (shape.words() - HEADER_WORDS) + at.saturating_sub(HEADER_WORDS);
    let allowed = fits(generation, place_of(page, at), word)
        && (!is_written(word) || before <= written);
    is_torn(word) || !allowed || fails_to_commit(page, at, word)
}

/// How many slots of a set stand before the first erased one. Page by page, since finding a slot by
/// its number takes a division.
pub(crate) fn written_front<F: Flash>(flash: &F, side: Side) -> usize {
    let shape = flash.shape();
    let slots = shape.words() - HEADER_WORDS;
    for page in 0..shape.pages() {
        let front = front_in_page(flash, side, page);
        if front < slots {
            return page * slots + front;
        }
    }
    shape.slots()
}

/// How many slots of a page of a set stand before the first erased one of them.
fn front_in_page<F: Flash>(flash: &F, side: Side, page: usize) -> usize {
    let slots = flash.shape().words() - HEADER_WORDS;
    for slot in 0..slots {
        if !is_written(page_slot(flash, side, page, slot)) {
            return slot;
        }
    }
    slots
}

/// Whether the word stands in one of the two places that commit a set, and doesn't do so.
fn fails_to_commit(page: usize, at: usize, word: Word) -> bool {
    if page != 0 {
        return false;
    }
    match at {
        0 => read_receive(word).is_none(),
        1 => !matches!(read_mark(word), MarkRead::Present),
        _ => false,
    }
}

/// The one of the two sets of which this holds, if it holds of one alone.
fn only(first: bool, second: bool) -> Option<Side> {
    if first == second {
        None
    } else if first {
        Some(Side::First)
    } else {
        Some(Side::Second)
    }
}

/// Whether something was programmed where the mark that commits the set stands.
fn has_begun<F: Flash>(flash: &F, side: Side) -> bool {
    is_written(set_word(flash, side, 0, 1))
}

/// Whether a page of the set has the whole mark that it may be erased.
fn is_left_behind<F: Flash>(flash: &F, side: Side) -> bool {
    for page in 0..flash.shape().pages() {
        if matches!(read_mark(set_word(flash, side, page, 3)), MarkRead::Present) {
            return true;
        }
    }
    false
}
