// Made by strip from crates/ee_nor/src/coded/ecc_nor.rt. Change that file.
// SPDX-License-Identifier: MIT OR Apache-2.0
//! A flash of numbers with error correction as a driver gives it.

use crate::ee_flash::{Cut, Shape};

/// A flash of numbers of 64 bits: they are programmed one at a time, and erased a page at a time.
/// Its cells go from one to zero while a number is programmed, and from zero to one while a page is
/// erased. A number reads as its cells, or, by a correction, with one bit turned, or can't be read.
/// A flash without error correction is one whose numbers all read as their cells.
///
/// A page has as many numbers as its shape has words. Pages are numbered from 0, those of the first
/// set first, and so are the numbers of a page. Both are in range, as a condition of each call.
pub trait EccNor {
    /// The pages of each set and the numbers of each page.
    fn shape(&self) -> Shape;

    /// How often a page was erased, saturating at `u64::MAX`.
    fn wear(&self, page: usize) -> u64;

    /// Whether power is on.
    fn is_on(&self) -> bool;

    /// A number, whether power is on or off. `None` where it can't be read, or reads as `u64::MAX`
    /// by a correction alone.
    fn read(&self, page: usize, at: usize) -> Option<u64>;

    /// Programs a number, below `u64::MAX`, in a place that reads `u64::MAX`.
    ///
    /// # Errors
    ///
    /// `Cut`, only with the device off afterwards: power failed in this step, and the cells of the
    /// place have every one of the number asked for; or power was off before it, and nothing
    /// changed.
    fn program(&mut self, page: usize, at: usize, number: u64) -> Result<(), Cut>;

    /// Erases a page: all its numbers are `u64::MAX`. An erase that starts adds 1 to the page's
    /// wear, also when it is cut.
    ///
    /// # Errors
    ///
    /// `Cut`, only with the device off afterwards: power failed in this step, or was off before it
    /// and nothing changed. A step that was cut left the cells of each number with every one that
    /// they had. It made none whole that a cut had left: what reads as a number whose ones were all
    /// there before read so before, unless it reads as erased.
    fn erase(&mut self, page: usize) -> Result<(), Cut>;

    /// How often power was cut in a step that had begun, saturating at `u64::MAX`.
    fn cuts(&self) -> u64;

    /// How many cuts may still come, `None` for any number. A step is cut only while this is not
    /// `Some(0)`, and a cut lowers a number by one.
    fn cuts_left(&self) -> Option<u64>;

    /// Turns power on. Nothing else changes.
    fn power_on(&mut self);
}
