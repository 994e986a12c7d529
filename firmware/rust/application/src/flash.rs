//! A flash in memory that writes, reads and erases so many bytes at a time, and whose power is cut in a step.

use ee_store::nor::{Ecc, Reading};
use embedded_storage::nor_flash::{
    ErrorType, NorFlash, NorFlashError, NorFlashErrorKind, ReadNorFlash,
};
use std::cell::RefCell;
use std::rc::Rc;

/// Power failed in this step or before it.
#[derive(Clone, Copy, Debug, PartialEq, Eq)]
pub struct Cut;

impl NorFlashError for Cut {
    fn kind(&self) -> NorFlashErrorKind {
        NorFlashErrorKind::Other
    }
}

/// What a flash holds, which two drivers of one flash share.
///
/// A step writes one unit or erases one sector. With ECC a cut leaves units that are as before, as asked for or torn.
/// Without it each bit that the step would change has changed or not. A flash that clears first may be left with any bits
/// by an erase.
#[derive(Clone, Debug)]
pub struct Cells {
    pub bytes: Vec<u8>,
    /// The bytes of a unit, and of a sector.
    unit: usize,
    sector: usize,
    /// Which units are torn, on a flash with ECC.
    torn: Vec<bool>,
    has_ecc: bool,
    clears_first: bool,
    /// How many steps end before power is cut. `None` where it isn't.
    fuse: Option<u64>,
    is_off: bool,
    chance: Chance,
}

/// Numbers by chance.
#[derive(Clone, Debug)]
pub struct Chance(pub u64);

impl Chance {
    pub fn number(&mut self) -> u64 {
        self.0 = self.0.wrapping_mul(6364136223846793005).wrapping_add(1);
        (self.0 ^ (self.0 >> 29)).wrapping_mul(0x9e37_79b9_7f4a_7c15) >> 16
    }

    pub fn below(&mut self, end: u64) -> u64 {
        self.number() % end
    }
}

impl Cells {
    pub fn blank(unit: usize, sector: usize, sectors: usize, has_ecc: bool) -> Cells {
        Cells {
            clears_first: false,
            bytes: vec![0xff; sectors * sector],
            unit,
            sector,
            torn: vec![false; sectors * sector / unit],
            has_ecc,
            fuse: None,
            is_off: false,
            chance: Chance(1),
        }
    }

    /// The same of a flash whose erase clears the cells of its sector first.
    pub fn clearing(self) -> Cells {
        Cells {
            clears_first: true,
            ..self
        }
    }

    /// The same with its power on, with chances of its own, and a cut behind so many steps.
    pub fn powered(&self, fuse: Option<u64>, seed: u64) -> Cells {
        Cells {
            is_off: false,
            fuse,
            chance: Chance(seed),
            ..self.clone()
        }
    }

    fn read(&self, start: usize, bytes: &mut [u8]) {
        bytes.copy_from_slice(&self.bytes[start..start + bytes.len()]);
    }

    fn is_torn(&self, start: usize, count: usize) -> bool {
        self.torn[start / self.unit..=(start + count - 1) / self.unit].contains(&true)
    }

    fn erase(&mut self, from: usize, to: usize) -> Result<(), Cut> {
        assert!(from % self.sector == 0 && to % self.sector == 0 && from < to);
        let blank = vec![0xff; self.unit];
        for sector in (from..to).step_by(self.sector) {
            let units = sector / self.unit..(sector + self.sector) / self.unit;
            if self.ends()? {
                self.bytes[sector..sector + self.sector].fill(0xff);
                self.torn[units].fill(false);
            } else if self.clears_first {
                self.clear(sector);
            } else {
                for unit in units {
                    self.leave(unit, &blank, false);
                }
            }
        }
        self.still_on()
    }

    fn write(&mut self, start: usize, bytes: &[u8]) -> Result<(), Cut> {
        assert!(start % self.unit == 0 && bytes.len() % self.unit == 0);
        for (count, asked) in bytes.chunks(self.unit).enumerate() {
            let unit = start / self.unit + count;
            let ends = self.ends()?;
            let old = &self.bytes[unit * self.unit..(unit + 1) * self.unit];
            assert!(old.iter().all(|byte| *byte == 0xff) && !self.torn[unit]);
            self.leave(unit, asked, ends);
        }
        self.still_on()
    }

    // What is left of a sector that is cut while it is cleared, or while it is set behind that.
    fn clear(&mut self, sector: usize) {
        let sets = self.chance.below(2) == 1;
        for byte in &mut self.bytes[sector..sector + self.sector] {
            let bits = self.chance.number() as u8;
            *byte = if sets { bits } else { *byte & bits };
        }
    }

    // Whether a step ends; `Err` where power was off before it.
    fn ends(&mut self) -> Result<bool, Cut> {
        self.still_on()?;
        match self.fuse {
            Some(0) => self.is_off = true,
            Some(left) => self.fuse = Some(left - 1),
            None => {}
        }
        Ok(!self.is_off)
    }

    fn still_on(&self) -> Result<(), Cut> {
        match self.is_off {
            true => Err(Cut),
            false => Ok(()),
        }
    }

    // What a step leaves of a unit that is to become this: it ends, or power is cut in it.
    fn leave(&mut self, unit: usize, asked: &[u8], ends: bool) {
        let chance = self.chance.below(3);
        let place = unit * self.unit;
        if ends || self.has_ecc && chance == 1 {
            self.bytes[place..place + self.unit].copy_from_slice(asked);
            self.torn[unit] = false;
        } else if self.has_ecc && chance == 2 {
            self.torn[unit] = true;
            for byte in &mut self.bytes[place..place + self.unit] {
                *byte = self.chance.number() as u8;
            }
        } else if !self.has_ecc {
            for (at, asked) in asked.iter().enumerate() {
                let changes = self.bytes[place + at] ^ asked;
                self.bytes[place + at] ^= changes & self.chance.number() as u8;
            }
        }
    }
}

/// A flash over these cells that writes, reads and erases so many bytes at a time.
#[derive(Clone, Debug)]
pub struct Memory<const WRITE: usize, const READ: usize, const SECTOR: usize>(
    pub Rc<RefCell<Cells>>,
);

impl<const W: usize, const R: usize, const S: usize> ErrorType for Memory<W, R, S> {
    type Error = Cut;
}

impl<const W: usize, const R: usize, const S: usize> ReadNorFlash for Memory<W, R, S> {
    const READ_SIZE: usize = R;

    fn read(&mut self, offset: u32, bytes: &mut [u8]) -> Result<(), Cut> {
        assert!(offset as usize % R == 0 && bytes.len() % R == 0);
        self.0.borrow().read(offset as usize, bytes);
        Ok(())
    }

    fn capacity(&self) -> usize {
        self.0.borrow().bytes.len()
    }
}

impl<const W: usize, const R: usize, const S: usize> NorFlash for Memory<W, R, S> {
    const WRITE_SIZE: usize = W;
    const ERASE_SIZE: usize = S;

    fn erase(&mut self, from: u32, to: u32) -> Result<(), Cut> {
        self.0.borrow_mut().erase(from as usize, to as usize)
    }

    fn write(&mut self, offset: u32, bytes: &[u8]) -> Result<(), Cut> {
        self.0.borrow_mut().write(offset as usize, bytes)
    }
}

/// Tells torn units, as an NMI handler's note does, of one word at a time or of several.
#[derive(Clone, Copy, Debug)]
pub struct Noted<const RUNS: bool>;

impl<const RUNS: bool, const W: usize, const R: usize, const S: usize> Ecc<Memory<W, R, S>>
    for Noted<RUNS>
{
    fn read_bytes(
        &self,
        flash: &mut Memory<W, R, S>,
        byte: u32,
        bytes: &mut [u8],
    ) -> Result<Reading, Cut> {
        flash.read(byte, bytes)?;
        let cells = flash.0.borrow();
        match cells.is_torn(byte as usize, bytes.len()) {
            true => Ok(Reading::Torn),
            false => Ok(Reading::Whole),
        }
    }

    fn reads_runs(&self) -> bool {
        RUNS
    }
}
