// Made by strip from crates/ee_pages/src/state.rt. Change that file.
// SPDX-License-Identifier: MIT OR Apache-2.0
//! What a page's header says: the last word of it that is written names the state.

use crate::ee_pages::runs::{RUN, UNREAD, run_from};
use crate::ee_flash::{Flash, Word};

/// What a page's header says of it. A torn mark counts as present.
#[derive(Clone, Copy, Debug, PartialEq, Eq)]
pub enum State {
    /// Empty, or left by a cut erase.
    Erased,
    /// Takes elements in a transfer.
    Receive,
    /// Takes new elements.
    Active,
    /// Full.
    Valid,
    /// Its elements were transferred, and it may be erased.
    Erasing,
}

/// A word of a page's header that can be programmed.
#[derive(Clone, Copy, Debug, PartialEq, Eq)]
pub enum Mark {
    /// The set has this generation, 1 to 4294967294, and takes elements.
    Receive(u32),
    /// The page takes new elements.
    Active,
    /// The page is full.
    Valid,
    /// The page's elements were transferred.
    Erasing,
}

/// The state of a page, which the last written word of its header names. Pages are numbered from 0,
/// those of the first set first.
pub fn state_of<F: Flash>(flash: &F, page: usize) -> State {
    if is_written(flash.word(page, 3)) {
        State::Erasing
    } else if is_written(flash.word(page, 2)) {
        State::Valid
    } else if is_written(flash.word(page, 1)) {
        State::Active
    } else if is_written(flash.word(page, 0)) {
        State::Receive
    } else {
        State::Erased
    }
}

/// Whether every word of a page is erased. Pages are numbered as for `state_of`.
pub fn is_blank<F: Flash>(flash: &F, page: usize) -> bool {
    blank_to(flash, page, 0) == flash.shape().words()
}

/// The place, from one on, of a page's first word that is written; as many as it has
/// words where none is. Pages are numbered as for `state_of`.
pub fn blank_to<F: Flash>(flash: &F, page: usize, from: usize) -> usize {
    let words = flash.shape().words();
    let mut room = [UNREAD; RUN];
    let mut at = from;
    // The first run has one word, since that is written in most pages that aren't blank.
    let mut end = from + 1;
    while at < words {
        let run = run_from(flash, page, at, end, &mut room);
        // Asked first, since most runs are, and it is a shorter loop than one that counts.
        if !is_erased(run) {
            return at + erased_in(run);
        }
        at += run.len();
        end = words;
    }
    words
}

/// Whether all readings are all ones.
fn is_erased(readings: &[u64]) -> bool {
    let mut all = u64::MAX;
    for reading in readings {
        all &= *reading;
    }
    all == u64::MAX
}

/// How many readings, from the first on, are all ones.
fn erased_in(readings: &[u64]) -> usize {
    for (place, reading) in readings.iter().enumerate() {
        if *reading != u64::MAX {
            return place;
        }
    }
    readings.len()
}

/// Whether something was programmed into the word, whole or torn.
pub(crate) fn is_written(word: Word) -> bool {
    !matches!(word, Word::Erased)
}

/// Whether a program of the word, or an erase of its page, was cut.
pub(crate) fn is_torn(word: Word) -> bool {
    matches!(word, Word::Torn)
}
