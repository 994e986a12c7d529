// Made by strip from crates/ee_nor/src/nor.rt. Change that file.
// SPDX-License-Identifier: MIT OR Apache-2.0
//! A flash of plain numbers as a driver gives it: numbers are programmed, pages
//! erased, and power is cut.

use crate::ee_flash::{Cut, Shape};

/// A flash of plain numbers: they are programmed one at a time, and erased a page at a time. Its
/// cells go from one to zero while a number is programmed. While a page is erased they go from zero
/// to one, and on some flashes all to zero first.
///
/// Its shape counts words, each of which takes two numbers: a page has twice as many numbers as
/// words. Pages are numbered from 0, those of the first set first, and so are the numbers of a
/// page. Both are in range, as a condition of each call.
pub trait Nor {
    /// The pages of each set and the words of each page, of two numbers each.
    fn shape(&self) -> Shape;

    /// Whether an erase first clears the cells of its page.
    fn clears_first(&self) -> bool;

    /// How often a page was erased, saturating at `u64::MAX`.
    fn wear(&self, page: usize) -> u64;

    /// Whether power is on.
    fn is_on(&self) -> bool;

    /// A number, whether power is on or off.
    fn read(&self, page: usize, at: usize) -> u64;

    /// So many numbers from a place of a page on, where the flash has them in memory, whether power
    /// is on or off. `None` where it hasn't: then `read` gives each.
    fn window(&self, page: usize, at: usize, count: usize) -> Option<&[u64]>;

    /// Programs a number, below `u64::MAX`, in a place that reads `u64::MAX`.
    ///
    /// # Errors
    ///
    /// `Cut`, only with the device off afterwards: power failed in this step, and the place
    /// has a number that has every bit of the one asked for; or power was off before it,
    /// and nothing changed.
    fn program(&mut self, page: usize, at: usize, number: u64) -> Result<(), Cut>;

    /// Erases a page: all its numbers are `u64::MAX`. An erase that starts adds 1 to the page's
    /// wear, also when it is cut.
    ///
    /// # Errors
    ///
    /// `Cut`, only with the device off afterwards: power failed in this step, or was off before it
    /// and nothing changed. A step that was cut left each number of the page with every bit that it
    /// had. Where the flash clears first, it made no two numbers of a word each other's complement.
    fn erase(&mut self, page: usize) -> Result<(), Cut>;

    /// How often power was cut in a step that had begun, saturating at `u64::MAX`.
    fn cuts(&self) -> u64;

    /// How many cuts may still come, `None` for any number. A step is cut only while this is not
    /// `Some(0)`, and a cut lowers a number by one.
    fn cuts_left(&self) -> Option<u64>;

    /// Turns power on. Nothing else changes.
    fn power_on(&mut self);
}
