//! The kinds of flash that are tried: what each writes, reads and erases at a time, and its driver.

use crate::flash::{Cells, Cut, Memory, Noted};
use ee_store::nor::{Ecc, NorDriver, Plain};
use ee_store::Kind::{Coded, Pairs, PairsClearing, Words};
use ee_store::{Driver, NorError, Shape, Unfit, Word};
use std::cell::RefCell;
use std::rc::Rc;

/// A driver of one of the kinds.
pub struct Part(Box<dyn Driver<Error = NorError<Cut>>>);

impl Driver for Part {
    type Error = NorError<Cut>;

    fn shape(&self) -> Shape {
        self.0.shape()
    }

    fn kind(&self) -> ee_store::Kind {
        self.0.kind()
    }

    fn word(&self, page: usize, at: usize) -> Result<Word, NorError<Cut>> {
        self.0.word(page, at)
    }

    fn read_run(&self, page: usize, at: usize, room: &mut [u64]) -> Result<(), NorError<Cut>> {
        self.0.read_run(page, at, room)
    }

    fn program(&mut self, page: usize, at: usize, value: u64) -> Result<(), NorError<Cut>> {
        self.0.program(page, at, value)
    }

    fn erase(&mut self, page: usize) -> Result<(), NorError<Cut>> {
        self.0.erase(page)
    }
}

/// Makes a driver of a flash with a store of this shape, which begins at the second sector.
type Make = fn(Rc<RefCell<Cells>>, Shape) -> Result<Part, Unfit>;

#[derive(Clone, Copy, Debug)]
pub struct Kind {
    /// What the flash writes and erases at a time, in bytes.
    pub unit: usize,
    pub sector: usize,
    pub has_ecc: bool,
    /// What a word is made of.
    pub words: ee_store::Kind,
    /// The bytes of a word of the store.
    pub word_bytes: usize,
    pub new: Make,
}

impl Kind {
    const fn of<E, const W: usize, const R: usize, const S: usize>(
        has_ecc: bool,
        words: ee_store::Kind,
        new: Make,
    ) -> Kind
    where
        E: Ecc<Memory<W, R, S>>,
    {
        Kind {
            unit: W,
            sector: S,
            has_ecc,
            words,
            word_bytes: NorDriver::<Memory<W, R, S>, E>::WORD_BYTES,
            new,
        }
    }
}

/// The kinds of flash that write and read so many bytes at a time, by each size of sectors.
macro_rules! sectors {
    ($ecc:ident, $reader:expr, $write:literal, $read:literal, $has_ecc:literal, $words:ident) => {
        sectors!($ecc, $reader, $write, $read, $has_ecc, $words, 128 256 512 1024 2048 4096 8192 16384)
    };
    ($ecc:ident, $reader:expr, $write:literal, $read:literal, $has_ecc:literal, $words:ident, $($sector:literal)*) => {
        [$(Kind::of::<$ecc, $write, $read, $sector>($has_ecc, $words, |cells, shape| {
            let flash = Memory::<$write, $read, $sector>(cells);
            Ok(Part(Box::new(NorDriver::new(flash, $sector, shape, $words, $reader)?)))
        })),*]
    };
}

type Single = Noted<false>;
type Several = Noted<true>;

/// Each size of writes with each size of sectors.
pub fn all() -> impl Iterator<Item = Kind> {
    [
        sectors!(Plain, Plain, 1, 1, false, Pairs),
        sectors!(Plain, Plain, 2, 8, false, Pairs),
        sectors!(Plain, Plain, 4, 4, false, Pairs),
        sectors!(Plain, Plain, 1, 1, false, PairsClearing),
        sectors!(Several, Noted::<true>, 8, 8, true, Words),
        sectors!(Single, Noted::<false>, 16, 1, true, Words),
        sectors!(Plain, Plain, 16, 16, false, Words),
        sectors!(Several, Noted::<true>, 32, 32, true, Words),
        sectors!(Several, Noted::<true>, 8, 8, true, Coded),
        sectors!(Single, Noted::<false>, 16, 1, true, Coded),
    ]
    .into_iter()
    .flatten()
}
