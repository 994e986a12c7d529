//! A driver over any `NorFlash`, by a feature of the package.
//!
//! How a word of the store stands in the flash follows from what the flash writes at a time, its `WRITE_SIZE`:
//!
//! | `WRITE_SIZE` | A word of the store | [`Kind`] | Bytes of a word |
//! |---|---|---|---|
//! | 1, 2, 4 | a pair of numbers, a value beside its complement | `Pairs`, `PairsClearing` | 16 |
//! | 8 | a word with ECC (error correction) | `Coded`, `Words` | 8 |
//! | 16, 32 | a word and its complement in one unit with ECC; of 32 bytes the rest is zeros | `Coded`, `Words` | 16, 32 |
//!
//! Bytes of a number stand from the lowest to the highest.

use crate::driver::{Driver, Kind};
use crate::ee_flash::{Shape, Word};
use crate::ee_nor::{complement_of, is_low, word_of};
use crate::error::{NorError, OpenError, Unfit};
use crate::storage::{borrowed, NorFlash, ReadNorFlash};
use crate::store::Store;
use core::cell::RefCell;
use core::ops::Range;

/// The most bytes that are read at once.
const BLOCK: usize = 128;
/// The most words of a page.
const PAGE_WORDS: usize = 512;
/// What stands for a number of a pair that is torn. With no other number does it make a word, but for the one that was meant.
const TORN: u64 = u64::MAX - 1;

/// How bytes of a flash are read, and how an uncorrectable ECC error in them is told.
///
/// Write one for a part whose ECC errors the flash's own `read` doesn't tell. **On STM32 such an error raises the NMI**: this
/// function then clears what your NMI handler noted, reads, and looks at the note. Without that no part with ECC opens
/// again after a cut that leaves a torn word where an opening reads.
pub trait Ecc<F: ReadNorFlash> {
    /// Reads these bytes: one word of the store, or several where [`reads_runs`](Ecc::reads_runs) answers so.
    ///
    /// # Errors
    ///
    /// The read itself failed, as on a bus that isn't up, or of a flash that goes on with a step from before a reset. That is
    /// no torn word: nothing is known of the bytes.
    fn read_bytes(&self, flash: &mut F, byte: u32, bytes: &mut [u8]) -> Result<Reading, F::Error>;

    /// Whether `read_bytes` may be asked for several words of a page at once, up to 128 bytes: then the flash is asked less often.
    /// Where one of them is torn, all are [`Torn`](Reading::Torn), and each is read once more by itself. So answer `true` only
    /// where a second read tells the error too.
    fn reads_runs(&self) -> bool {
        false
    }

    /// It is called before these bytes are erased. A reader that keeps torn words, since a cache may hide the error of a second
    /// read, forgets those in them.
    fn erases(&self, _bytes: Range<u32>) {}
}

/// How a read ended that didn't fail.
#[derive(Clone, Copy, Debug, PartialEq, Eq)]
pub enum Reading {
    /// The bytes are what the flash holds.
    Whole,
    /// The bytes have an uncorrectable ECC error.
    Torn,
}

/// Reads by the flash's own `read` alone, whose error is an error: for a flash without ECC, or one whose `read` fails for no
/// torn word.
#[derive(Clone, Copy, Debug, Default, PartialEq, Eq)]
pub struct Plain;

impl<F: ReadNorFlash> Ecc<F> for Plain {
    fn read_bytes(&self, flash: &mut F, byte: u32, bytes: &mut [u8]) -> Result<Reading, F::Error> {
        ReadNorFlash::read(flash, byte, bytes)?;
        Ok(Reading::Whole)
    }

    fn reads_runs(&self) -> bool {
        true
    }
}

/// A driver over a `NorFlash`: the pages of the store begin at a byte of it.
///
/// Each page begins with a sector of `ERASE_SIZE` bytes and takes as many as it needs. What is left of the last one is
/// erased with the page and is otherwise not touched.
#[derive(Debug)]
pub struct NorDriver<F, E = Plain> {
    // `NorFlash::read` changes the flash, and a word is read of a driver that stays as it is.
    flash: RefCell<F>,
    ecc: E,
    kind: Kind,
    offset: u32,
    /// From where a page begins to where the next one does, in bytes: a multiple of `ERASE_SIZE`.
    stride: u32,
    shape: Shape,
}

impl<F: NorFlash> Store<NorDriver<F>> {
    /// Opens the store in these bytes of a flash, or makes the first one on a new part: [`open_or_format`](Store::open_or_format)
    /// of [`NorDriver::over`].
    ///
    /// # Errors
    ///
    /// The first [`OpenError`] that applies.
    pub fn over(
        flash: F,
        range: Range<u32>,
        kind: Kind,
    ) -> Result<Store<NorDriver<F>>, OpenError<NorError<F::Error>>> {
        Store::open_or_format(NorDriver::over(flash, range, kind)?)
    }
}

impl<F: NorFlash> NorDriver<F> {
    /// A driver for a store in these bytes of the flash, from where one sector of `ERASE_SIZE` bytes begins to where another
    /// does. Its shape is [`shape_of`](NorDriver::shape_of). Nothing is read or written.
    ///
    /// # Errors
    ///
    /// The first [`Unfit`] that applies.
    pub fn over(flash: F, range: Range<u32>, kind: Kind) -> Result<NorDriver<F>, Unfit> {
        NorDriver::over_ecc(flash, range, kind, Plain)
    }
}

impl<F: NorFlash, E: Ecc<F>> NorDriver<F, E> {
    /// How many bytes are programmed at once: those of a word, or of a number of a pair.
    const UNIT: usize = if F::WRITE_SIZE < 8 { 8 } else { F::WRITE_SIZE };

    /// How many bytes of the flash a word of the store takes: 8, 16 or 32.
    pub const WORD_BYTES: usize = Self::UNIT << (F::WRITE_SIZE < 8) as usize;

    /// The same for a flash that is read in another way, as one with ECC is on an STM32.
    ///
    /// # Errors
    ///
    /// The first [`Unfit`] that applies.
    pub fn over_ecc(flash: F, range: Range<u32>, kind: Kind, ecc: E) -> Result<Self, Unfit> {
        let shape = Self::shape_of(&range)?;
        NorDriver::new(flash, range.start, shape, kind, ecc)
    }

    /// A driver for a store of this shape that begins at this byte, a multiple of `ERASE_SIZE`, read in this way. A flash that
    /// another firmware made a store in is opened with the same ones. Nothing is read or written.
    ///
    /// # Errors
    ///
    /// The first [`Unfit`] that applies.
    pub fn new(flash: F, offset: u32, shape: Shape, kind: Kind, ecc: E) -> Result<Self, Unfit> {
        Self::check_sizes(offset)?;
        if matches!(kind, Kind::Words | Kind::Coded) != (F::WRITE_SIZE >= 8) {
            return Err(Unfit::Kind);
        }
        let stride = (shape.words() * Self::WORD_BYTES).next_multiple_of(F::ERASE_SIZE) as u64;
        let size = stride.saturating_mul(2 * shape.pages() as u64);
        let end = size.saturating_add(offset.into());
        if end > flash.capacity() as u64 || end > u32::MAX.into() {
            return Err(Unfit::Capacity);
        }
        Ok(NorDriver {
            flash: RefCell::new(flash),
            ecc,
            kind,
            offset,
            stride: stride as u32,
            shape,
        })
    }

    /// The shape of a store in these bytes: each sector is a page, of as many words as fit, 512 at most. The first half of
    /// the sectors is the first set.
    ///
    /// # Errors
    ///
    /// The first [`Unfit`] that applies, but for `Kind` and `Capacity`: no flash is asked.
    pub fn shape_of(range: &Range<u32>) -> Result<Shape, Unfit> {
        Self::check_sizes(range.start)?;
        let length = range.end.saturating_sub(range.start) as usize;
        let sectors = length / F::ERASE_SIZE;
        if length % F::ERASE_SIZE != 0 || sectors % 2 != 0 {
            return Err(Unfit::Length);
        }
        Shape::new(sectors / 2, PAGE_WORDS).ok_or(Unfit::Length)?;
        let words = (F::ERASE_SIZE / Self::WORD_BYTES).min(PAGE_WORDS);
        Shape::new(sectors / 2, words).ok_or(Unfit::Sector)
    }

    /// The flash, to be used for what stands elsewhere in it.
    pub fn flash_mut(&mut self) -> &mut F {
        self.flash.get_mut()
    }

    /// The flash, as it is.
    pub fn into_flash(self) -> F {
        self.flash.into_inner()
    }

    // Whether a store fits sizes of this flash, and this byte.
    fn check_sizes(offset: u32) -> Result<(), Unfit> {
        let (write, read, sector) = (F::WRITE_SIZE, F::READ_SIZE, F::ERASE_SIZE);
        match sector {
            _ if !matches!(write, 1 | 2 | 4 | 8 | 16 | 32) => Err(Unfit::WriteSize),
            _ if read == 0 || Self::UNIT % read != 0 => Err(Unfit::ReadSize),
            0 => Err(Unfit::EraseSize),
            _ if sector % write != 0 || sector % read != 0 => Err(Unfit::EraseSize),
            _ if offset as usize % sector != 0 => Err(Unfit::Offset),
            _ => Ok(()),
        }
    }

    // Where a word of a page begins, or a number of it.
    fn byte(&self, page: usize, at: usize) -> u32 {
        self.offset + page as u32 * self.stride + (Self::UNIT * at) as u32
    }

    // Whether these bytes, of one word of a page or of several from there on, are whole.
    fn look(&self, page: usize, at: usize, bytes: &mut [u8]) -> Result<bool, NorError<F::Error>> {
        let mut flash = borrowed(&self.flash);
        let read = self.ecc.read_bytes(&mut flash, self.byte(page, at), bytes);
        Ok(read.map_err(NorError::Flash)? == Reading::Whole)
    }

    // The word that stands in these bytes: a number, or a value, its complement, and zeros. One that no store wrote is 0.
    fn word_in(bytes: &[u8]) -> Word {
        let value = number(bytes);
        if Self::UNIT == 8 {
            return Word::from(value);
        }
        let check = number(&bytes[8..]);
        let word = word_of(value, check);
        let rest = if word == Word::Erased { 0xff } else { 0 };
        match bytes[16..Self::UNIT].iter().all(|byte| *byte == rest) {
            _ if is_low(value, check) => Word::Held(0),
            true => word,
            false => Word::Torn,
        }
    }
}

// The number that these bytes begin with.
fn number(bytes: &[u8]) -> u64 {
    u64::from_le_bytes(bytes.first_chunk().copied().unwrap_or_default())
}

impl<F: NorFlash, E: Ecc<F>> Driver for NorDriver<F, E> {
    type Error = NorError<F::Error>;

    fn shape(&self) -> Shape {
        self.shape
    }

    // By what the flash writes at a time a program leaves out pairs, or all but these.
    fn kind(&self) -> Kind {
        match self.kind {
            Kind::Coded if F::WRITE_SIZE >= 8 => Kind::Coded,
            _ if F::WRITE_SIZE >= 8 => Kind::Words,
            Kind::Pairs => Kind::Pairs,
            _ => Kind::PairsClearing,
        }
    }

    fn word(&self, page: usize, at: usize) -> Result<Word, Self::Error> {
        let mut bytes = [0; 32];
        let bytes = &mut bytes[..Self::UNIT];
        match self.kind() {
            _ if self.look(page, at, bytes)? => Ok(Self::word_in(bytes)),
            Kind::Words | Kind::Coded => Ok(Word::Torn),
            _ => Ok(Word::Held(TORN)),
        }
    }

    fn read_run(&self, page: usize, at: usize, room: &mut [u64]) -> Result<(), Self::Error> {
        let most = BLOCK / Self::UNIT;
        let mut bytes = [0; BLOCK];
        for (at, run) in (at..).step_by(most).zip(room.chunks_mut(most)) {
            let bytes = &mut bytes[..run.len() * Self::UNIT];
            let are_whole = self.ecc.reads_runs() && self.look(page, at, bytes)?;
            for (place, number) in run.iter_mut().enumerate() {
                *number = match are_whole {
                    true => Self::word_in(&bytes[place * Self::UNIT..]).number(),
                    false => self.word(page, at + place)?.number(),
                };
            }
        }
        Ok(())
    }

    fn program(&mut self, page: usize, at: usize, value: u64) -> Result<(), Self::Error> {
        let mut bytes = [0; 32];
        bytes[..8].copy_from_slice(&value.to_le_bytes());
        bytes[8..16].copy_from_slice(&complement_of(value).to_le_bytes());
        let byte = self.byte(page, at);
        let written = NorFlash::write(self.flash.get_mut(), byte, &bytes[..Self::UNIT]);
        written.map_err(NorError::Flash)?;
        match self.word(page, at)? == Word::Held(value) {
            true => Ok(()),
            false => Err(NorError::ReadBack),
        }
    }

    fn erase(&mut self, page: usize) -> Result<(), Self::Error> {
        let from = self.byte(page, 0);
        let behind = from + self.stride;
        self.ecc.erases(from..behind);
        let erased = NorFlash::erase(self.flash.get_mut(), from, behind);
        erased.map_err(NorError::Flash)?;
        let units = self.shape.words() * Self::WORD_BYTES / Self::UNIT;
        for from in (0..units).step_by(16) {
            let room = &mut [0; 16][..16.min(units - from)];
            self.read_run(page, from, room)?;
            if room.iter().any(|number| *number != u64::MAX) {
                return Err(NorError::ReadBack);
            }
        }
        Ok(())
    }
}
