//! C's flash of numbers, two for each word or each a coded word, as the proved words take them.

use crate::flash::{Device, Flash};
use ee_store::proved::{Cut, EccNor, Flash as _, Nor};
use ee_store::Shape;

/// The numbers of a device that was on: they are read and programmed in the flash that it had then. Only its `word`, its `run`,
/// its `program` and an opening ask for them, on pages that there are; an erase asks whether it is on still.
pub struct Numbers<'a> {
    pub device: Device,
    pub flash: &'a Flash,
}

impl Nor for Numbers<'_> {
    fn shape(&self) -> Shape {
        self.device.shape
    }

    fn clears_first(&self) -> bool {
        self.flash.kind == 2 // EE_PAIRS_CLEARING
    }

    fn wear(&self, page: usize) -> u64 {
        self.device.wear(page)
    }

    fn is_on(&self) -> bool {
        self.device.is_on()
    }

    /// A number that can't be read is taken as 0: no word of a store is 0, so none is made of it. No read follows one that
    /// failed. While the device is on it has the flash that it had.
    fn read(&self, page: usize, at: usize) -> u64 {
        match self.device.flash() {
            Some(flash) => self.device.found(flash, page, at).unwrap_or(0),
            None => 0,
        }
    }

    fn window(&self, page: usize, at: usize, count: usize) -> Option<&[u64]> {
        self.device.seen(self.device.flash()?, page, at, count)
    }

    fn program(&mut self, page: usize, at: usize, number: u64) -> Result<(), Cut> {
        self.device.write(self.flash, page, at, number)
    }

    fn erase(&mut self, page: usize) -> Result<(), Cut> {
        self.device.erased(page)
    }

    fn cuts(&self) -> u64 {
        self.device.cuts()
    }

    fn cuts_left(&self) -> Option<u64> {
        self.device.cuts_left()
    }

    fn power_on(&mut self) {}
}

/// The same of a flash of coded words.
pub struct Codes<'a> {
    pub device: Device,
    pub flash: &'a Flash,
}

impl EccNor for Codes<'_> {
    fn shape(&self) -> Shape {
        self.device.shape
    }

    fn wear(&self, page: usize) -> u64 {
        self.device.wear(page)
    }

    fn is_on(&self) -> bool {
        self.device.is_on()
    }

    fn read(&self, page: usize, at: usize) -> Option<u64> {
        self.device.found(self.device.flash()?, page, at)
    }

    fn program(&mut self, page: usize, at: usize, number: u64) -> Result<(), Cut> {
        self.device.write(self.flash, page, at, number)
    }

    fn erase(&mut self, page: usize) -> Result<(), Cut> {
        self.device.erased(page)
    }

    fn cuts(&self) -> u64 {
        self.device.cuts()
    }

    fn cuts_left(&self) -> Option<u64> {
        self.device.cuts_left()
    }

    fn power_on(&mut self) {}
}

/// How a store is opened.
#[derive(Clone, Copy, PartialEq, Eq)]
#[repr(u32)]
pub enum How {
    Open,
    Start,
    Format,
}
