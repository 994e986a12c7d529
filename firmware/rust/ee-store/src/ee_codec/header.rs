// Made by strip from crates/ee_codec/src/header.rt. Change that file.
// SPDX-License-Identifier: MIT OR Apache-2.0
//! The words of a page's header: the receive word, which names a generation, and the mark.

use crate::ee_flash::Word;

/// The mark: what the header words that say active, valid and erasing hold once they are
/// programmed.
pub const MARK: u64 = 0xAAAA_AAAA_AAAA_AAAA;

/// What a receive word is without its generation.
const RECEIVE: u64 = 0xAAAA_AAAA_0000_0000;

/// What a header word says in the place of a mark.
#[derive(Clone, Copy, Debug, PartialEq, Eq)]
pub enum MarkRead {
    /// Nothing was programmed yet.
    Absent,
    /// The mark is there.
    Present,
    /// A torn word: a mark was begun.
    Broken,
    /// Another number.
    Foreign,
}

/// The word that opens a set of this generation for taking elements.
pub fn receive_word(generation: u32) -> u64 {
    RECEIVE + u64::from(generation)
}

/// Reads a word in the place of a receive word: the inverse of `receive_word`, and nothing else
/// reads.
pub fn read_receive(word: Word) -> Option<u32> {
    match word {
        Word::Held(number) if number > RECEIVE && number < RECEIVE + 0xffff_ffff => {
            Some((number - RECEIVE) as u32)
        }
        _ => None,
    }
}

/// Reads a word in the place of a mark: only `MARK` is one.
pub fn read_mark(word: Word) -> MarkRead {
    match word {
        Word::Erased => MarkRead::Absent,
        Word::Torn => MarkRead::Broken,
        Word::Held(MARK) => MarkRead::Present,
        Word::Held(_) => MarkRead::Foreign,
    }
}
