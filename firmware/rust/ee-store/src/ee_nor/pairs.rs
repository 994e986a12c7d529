// Made by strip from crates/ee_nor/src/pairs.rt. Change that file.
// SPDX-License-Identifier: MIT OR Apache-2.0
//! A device of words on a flash of numbers.

use crate::ee_nor::low_pair::{LowPair, first_low};
use crate::ee_nor::nor::Nor;
use crate::ee_nor::runs::{fill_run, is_whole};
use crate::ee_nor::wiping::wipe;
use crate::ee_flash::{Cut, Flash, Shape, Word};

/// A device of words on a flash of numbers: each word is two of them, a value beside its
/// complement.
pub struct Pairs<N: Nor> {
    nor: N,
}

impl<N: Nor> Pairs<N> {
    /// The device of words of a flash that a store wrote, or that is blank. It reads each number
    /// once, whether power is on or off, and changes nothing. Of a flash that clears first it reads
    /// none: there a cut erase leaves any numbers.
    ///
    /// # Errors
    ///
    /// `LowPair`, with the flash as it was: it doesn't clear first, and this is the first
    /// word whose two numbers sum to less than `u64::MAX`. The flash held something else;
    /// `wipe` makes it blank.
    pub fn of(nor: N) -> Result<Pairs<N>, (N, LowPair)> {
        if nor.clears_first() {
            return Ok(Pairs { nor });
        }
        match first_low(&nor) {
            None => Ok(Pairs { nor }),
            Some(low) => Err((nor, low)),
        }
    }

    /// The device of words of a flash that may hold anything: each page that isn't blank is erased,
    /// by rising page. The flash is on, as a condition.
    ///
    /// # Errors
    ///
    /// `Cut`, with the flash, which is off: power failed in an erase. The pages
    /// before it are blank.
    pub fn wipe(mut nor: N) -> Result<Pairs<N>, (N, Cut)> {
        match wipe(&mut nor) {
            Ok(()) => Ok(Pairs { nor }),
            Err(cut) => Err((nor, cut)),
        }
    }

    /// The device of words of a flash that clears first, or of which it is known that no word's
    /// numbers sum to less than `u64::MAX`, since it was looked at before and only such devices
    /// wrote to it. Where power is cut in no step, it is of any flash, as of one that `of` refuses
    /// and that is rescued: such a word is torn. Nothing is read.
    pub fn known(nor: N) -> Pairs<N> {
        Pairs { nor }
    }

    /// The flash, as it is.
    pub fn into_nor(self) -> N {
        self.nor
    }
}

/// The word that two numbers are: erased where both are `u64::MAX`, held where the second is the
/// complement of the first, which is below `u64::MAX`; else torn.
pub fn word_of(number: u64, check: u64) -> Word {
    if !is_whole(number, check) {
        return Word::Torn;
    }
    if number == u64::MAX {
        return Word::Erased;
    }
    Word::Held(number)
}

/// The number that has a one where this one has a zero.
pub fn complement_of(number: u64) -> u64 {
    u64::MAX - number
}

impl<N: Nor> Flash for Pairs<N> {
    fn shape(&self) -> Shape {
        self.nor.shape()
    }

    fn wear(&self, page: usize) -> u64 {
        self.nor.wear(page)
    }

    fn is_on(&self) -> bool {
        self.nor.is_on()
    }

    fn word(&self, page: usize, at: usize) -> Word {
        word_of(self.nor.read(page, 2 * at), self.nor.read(page, 2 * at + 1))
    }

    fn run<'a>(&'a self, page: usize, at: usize, room: &'a mut [u64]) -> &'a [u64] {
        fill_run(&self.nor, page, at, room);
        room
    }

    fn number(&self, reading: u64) -> u64 {
        reading
    }

    fn in_clear(&self, reading: u64) -> u64 {
        reading
    }

    /// Programs an erased word with any number below `u64::MAX`.
    // The complement of 0 is what an erased place reads as.
    fn program(&mut self, page: usize, at: usize, value: u64) -> Result<(), Cut> {
        self.nor.program(page, 2 * at, value)?;
        let check = complement_of(value);
        if check == u64::MAX {
            return Ok(());
        }
        self.nor.program(page, 2 * at + 1, check)
    }

    fn erase(&mut self, page: usize) -> Result<(), Cut> {
        self.nor.erase(page)
    }

    fn cuts(&self) -> u64 {
        self.nor.cuts()
    }

    fn cuts_left(&self) -> Option<u64> {
        self.nor.cuts_left()
    }

    fn power_on(&mut self) {
        self.nor.power_on();
    }
}
