// Made by strip from crates/ee_flash/src/device.rt. Change that file.
// SPDX-License-Identifier: MIT OR Apache-2.0
//! The flash device as the layers above know it: words are programmed, pages erased, and power is
//! cut.

use crate::ee_flash::{Shape, Word};

/// Power failed during a step, or was off before it.
#[derive(Clone, Copy, Debug, PartialEq, Eq)]
pub struct Cut;

/// A flash device: words that are programmed one at a time, and erased a page at a time.
///
/// Pages are numbered from 0, those of the first set first, and so are the words of a page. Both
/// are in range, as a condition of each call.
///
/// Source: programming by 64-bit words, erasing by pages and words that read as unreadable, AN4894;
/// the rest, and what a cut may leave, is ours.
pub trait Flash {
    /// The pages of each set and the words of each page.
    fn shape(&self) -> Shape;

    /// How often a page was erased, saturating at `u64::MAX`.
    fn wear(&self, page: usize) -> u64;

    /// Whether power is on.
    fn is_on(&self) -> bool;

    /// What a word holds, whether power is on or off.
    fn word(&self, page: usize, at: usize) -> Word;

    /// Readings of the words from a place on, as many as there is room for, whether power is on or
    /// off. They stand in the room, or where the device has them. An erased word alone reads as
    /// `u64::MAX`, and a slot's number as one that ends in the same 16 bits.
    fn run<'a>(&'a self, page: usize, at: usize, room: &'a mut [u64]) -> &'a [u64];

    /// The number of the word that reads so: `u64::MAX` of an erased word, 0 of a torn one. `word`
    /// tells a torn word from one that holds 0.
    fn number(&self, reading: u64) -> u64;

    /// What stands in a reading with no check. Of a word that holds a slot's number it is that
    /// number; where it is one that ends in less than 65535, the word holds it or is torn.
    fn in_clear(&self, reading: u64) -> u64;

    /// Programs an erased word with a number below `u64::MAX`, one of those that a store writes.
    ///
    /// # Errors
    ///
    /// `Cut`, only with the device off afterwards: power failed in this step, or was off before it
    /// and nothing changed.
    fn program(&mut self, page: usize, at: usize, value: u64) -> Result<(), Cut>;

    /// Erases a page. An erase that starts adds 1 to the page's wear, also when it is cut.
    ///
    /// # Errors
    ///
    /// `Cut`, only with the device off afterwards: power failed in this step, or was off before it
    /// and nothing changed.
    fn erase(&mut self, page: usize) -> Result<(), Cut>;

    /// How often power was cut in a step that had begun, saturating at `u64::MAX`.
    fn cuts(&self) -> u64;

    /// How many cuts may still come, `None` for any number. A step is cut only while this is not
    /// `Some(0)`, and a cut lowers a number by one.
    fn cuts_left(&self) -> Option<u64>;

    /// Turns power on. Nothing else changes.
    fn power_on(&mut self);
}
