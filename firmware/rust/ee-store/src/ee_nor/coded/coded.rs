// Made by strip from crates/ee_nor/src/coded/coded.rt. Change that file.
// SPDX-License-Identifier: MIT OR Apache-2.0
//! A device of words on a flash of coded numbers.

use crate::ee_nor::coded::ecc_nor::EccNor;
use crate::ee_nor::coded::runs::fill_run;
use crate::ee_nor::coded::shapes::{OtherShape, other_shape};
use crate::ee_nor::coded::wiping::{may_be_new, wipe};
use crate::ee_nor::coded::words::{coded_number, without_check, word_of_reading};
use crate::ee_flash::{Cut, Flash, Shape, Word};

/// A device of words on a flash of numbers, each of which is a coded word.
pub struct Coded<N: EccNor> {
    nor: N,
}

impl<N: EccNor> Coded<N> {
    /// The device of words of a flash that is blank, or to which only such devices wrote, of
    /// whatever shape. It reads word 1 of the first page of each set, whether power is on or off,
    /// and changes nothing.
    ///
    /// # Errors
    ///
    /// `OtherShape`, with the flash as it was: the mark there is of this shape, and not of the
    /// device's own. Page 0 comes first, the first page of set 0 in each shape. That of set 1 is
    /// looked for where the own shape has it. So a flash of another shape passes where page 0 is
    /// erased and no mark stands there; as none of its marks reads as one, it has no live set. With
    /// 0 pages it holds plain words: one of these two is their mark, and neither is the device's.
    pub fn of(nor: N) -> Result<Coded<N>, (N, OtherShape)> {
        match other_shape(&nor) {
            None => Ok(Coded { nor }),
            Some(other) => Err((nor, other)),
        }
    }

    /// The device of words of such a flash, of which the shape is known. Of a number that something
    /// else wrote an erase that is cut could make a coded word; where power is cut in no step it is
    /// of any flash. Nothing is read, since a reading doesn't tell.
    pub fn known(nor: N) -> Coded<N> {
        Coded { nor }
    }

    /// The device of words of a flash that may hold anything: each page that isn't blank is erased,
    /// by rising page. The flash is on, as a condition.
    ///
    /// # Errors
    ///
    /// `Cut`, with the flash, which is off: power failed in an erase. The pages before it are
    /// blank.
    pub fn wipe(mut nor: N) -> Result<Coded<N>, (N, Cut)> {
        match wipe(&mut nor) {
            Ok(()) => Ok(Coded { nor }),
            Err(cut) => Err((nor, cut)),
        }
    }

    /// Whether a first store may be made here: no more is written than the first two words of page
    /// 0, all that a first start which was cut leaves. Data of something else read as torn, so by
    /// its words alone a store can't tell them from none.
    pub fn may_be_new(&self) -> bool {
        may_be_new(&self.nor)
    }

    /// The flash, as it is.
    pub fn into_nor(self) -> N {
        self.nor
    }
}

impl<N: EccNor> Flash for Coded<N> {
    fn shape(&self) -> Shape {
        self.nor.shape()
    }

    fn wear(&self, page: usize) -> u64 {
        self.nor.wear(page)
    }

    fn is_on(&self) -> bool {
        self.nor.is_on()
    }

    fn word(&self, page: usize, at: usize) -> Word {
        word_of_reading(self.nor.shape(), self.nor.read(page, at))
    }

    fn run<'a>(&'a self, page: usize, at: usize, room: &'a mut [u64]) -> &'a [u64] {
        fill_run(&self.nor, page, at, room);
        room
    }

    fn number(&self, reading: u64) -> u64 {
        word_of_reading(self.nor.shape(), Some(reading)).number()
    }

    fn in_clear(&self, reading: u64) -> u64 {
        without_check(reading)
    }

    fn program(&mut self, page: usize, at: usize, value: u64) -> Result<(), Cut> {
        let number = coded_number(self.nor.shape(), value);
        self.nor.program(page, at, number)
    }

    fn erase(&mut self, page: usize) -> Result<(), Cut> {
        self.nor.erase(page)
    }

    fn cuts(&self) -> u64 {
        self.nor.cuts()
    }

    fn cuts_left(&self) -> Option<u64> {
        self.nor.cuts_left()
    }

    fn power_on(&mut self) {
        self.nor.power_on();
    }
}
