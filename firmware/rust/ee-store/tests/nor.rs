//! The driver over a flash in memory that writes 8 bytes at a time. `firmware/rust/application` tries all other sizes.

use ee_store::nor::{Ecc, NorDriver, Plain, Reading};
use ee_store::{
    Address, Driver, DriverError, Error, Kind, NorError, OpenError, Shape, Step, Store, Unfit,
    Word, Written,
};
use embedded_storage::nor_flash::{
    ErrorType, NorFlash, NorFlashError, NorFlashErrorKind, ReadNorFlash,
};
use std::cell::RefCell;
use std::ops::Range;
use std::rc::Rc;

#[derive(Clone, Copy, Debug, PartialEq, Eq)]
struct Broken;

impl NorFlashError for Broken {
    fn kind(&self) -> NorFlashErrorKind {
        NorFlashErrorKind::Other
    }
}

/// Four pages of 48 bytes; a read at `down` fails, and a write to `worn` is lost.
struct Memory {
    bytes: [u8; 192],
    down: Option<u32>,
    worn: Option<u32>,
    fails: bool,
    /// Whether an erase leaves the last word as it was, and says nothing.
    lies: bool,
}

impl ErrorType for Memory {
    type Error = Broken;
}

impl ReadNorFlash for Memory {
    const READ_SIZE: usize = 4;

    fn read(&mut self, offset: u32, bytes: &mut [u8]) -> Result<(), Broken> {
        if self.down == Some(offset) {
            return Err(Broken);
        }
        let start = offset as usize;
        bytes.copy_from_slice(&self.bytes[start..start + bytes.len()]);
        Ok(())
    }

    fn capacity(&self) -> usize {
        self.bytes.len()
    }
}

impl NorFlash for Memory {
    const WRITE_SIZE: usize = 8;
    const ERASE_SIZE: usize = 48;

    fn erase(&mut self, from: u32, to: u32) -> Result<(), Broken> {
        if self.fails {
            return Err(Broken);
        }
        let end = to as usize - if self.lies { 8 } else { 0 };
        self.bytes[from as usize..end].fill(0xff);
        Ok(())
    }

    fn write(&mut self, offset: u32, bytes: &[u8]) -> Result<(), Broken> {
        if self.fails {
            return Err(Broken);
        }
        if self.worn != Some(offset) {
            self.bytes[offset as usize..offset as usize + bytes.len()].copy_from_slice(bytes);
        }
        Ok(())
    }
}

fn memory() -> Memory {
    Memory {
        bytes: [0xff; 192],
        down: None,
        worn: None,
        fails: false,
        lies: false,
    }
}

const SHAPE: Shape = match Shape::new(1, 6) {
    Some(shape) => shape,
    None => panic!("1 to 64 pages, 5 to 512 words"),
};

fn driver(memory: Memory) -> NorDriver<Memory> {
    NorDriver::new(memory, 0, SHAPE, Kind::Words, Plain).unwrap()
}

/// Why a flash is refused for a store of one page of six words a set.
fn unfit<F: NorFlash>(flash: F, offset: u32) -> Option<Unfit> {
    NorDriver::new(flash, offset, SHAPE, Kind::Words, Plain).err()
}

#[test]
fn values_are_kept() {
    let address = Address::new(7).unwrap();
    let mut store =
        Store::format(NorDriver::new(memory(), 48, SHAPE, Kind::Words, Plain).unwrap()).unwrap();
    for value in 0..9 {
        assert!(store.write(address, value).is_ok());
    }
    let memory = store.into_driver().into_flash();
    assert!(memory.bytes[..48].iter().all(|byte| *byte == 0xff));
    assert!(memory.bytes[144..].iter().all(|byte| *byte == 0xff));
    let store =
        Store::open(NorDriver::new(memory, 48, SHAPE, Kind::Words, Plain).unwrap()).unwrap();
    assert_eq!(store.read(address), Ok(Some(8)));
}

#[test]
fn what_does_not_fit_is_refused() {
    assert_eq!(unfit(memory(), 8), Some(Unfit::Offset));
    assert_eq!(unfit(memory(), 144), Some(Unfit::Capacity));
    assert_eq!(unfit(memory(), 96), None);
    let two = Shape::new(2, 6).unwrap();
    assert!(NorDriver::new(memory(), 0, two, Kind::Words, Plain).is_ok());
    // A page of seven words takes two sectors.
    for (pages, is_well) in [(1, true), (2, false)] {
        let shape = Shape::new(pages, 7).unwrap();
        let driver = NorDriver::new(memory(), 0, shape, Kind::Words, Plain);
        assert_eq!(driver.is_ok(), is_well);
    }
    assert_eq!(
        unfit(Sizes::<8, 8, 64>, u32::MAX - 63),
        Some(Unfit::Capacity)
    );
}

/// A flash of these sizes, which is never asked for anything.
struct Sizes<const WRITE: usize, const READ: usize, const ERASE: usize>;

impl<const W: usize, const R: usize, const S: usize> ErrorType for Sizes<W, R, S> {
    type Error = Broken;
}

impl<const W: usize, const R: usize, const S: usize> ReadNorFlash for Sizes<W, R, S> {
    const READ_SIZE: usize = R;

    fn read(&mut self, _offset: u32, _bytes: &mut [u8]) -> Result<(), Broken> {
        Err(Broken)
    }

    fn capacity(&self) -> usize {
        usize::MAX
    }
}

impl<const W: usize, const R: usize, const S: usize> NorFlash for Sizes<W, R, S> {
    const WRITE_SIZE: usize = W;
    const ERASE_SIZE: usize = S;

    fn erase(&mut self, _from: u32, _to: u32) -> Result<(), Broken> {
        unreachable!("nothing is erased")
    }

    fn write(&mut self, _offset: u32, _bytes: &[u8]) -> Result<(), Broken> {
        unreachable!("nothing is written")
    }
}

#[test]
fn sizes_that_do_not_fit_are_refused() {
    assert_eq!(unfit(Sizes::<3, 1, 48>, 0), Some(Unfit::WriteSize));
    assert_eq!(unfit(Sizes::<64, 1, 64>, 0), Some(Unfit::WriteSize));
    assert_eq!(unfit(Sizes::<8, 16, 64>, 0), Some(Unfit::ReadSize));
    assert_eq!(unfit(Sizes::<4, 3, 48>, 0), Some(Unfit::ReadSize));
    assert_eq!(unfit(Sizes::<8, 0, 64>, 0), Some(Unfit::ReadSize));
    assert_eq!(unfit(Sizes::<8, 8, 60>, 0), Some(Unfit::EraseSize));
    assert_eq!(unfit(Sizes::<4, 8, 60>, 0), Some(Unfit::EraseSize));
    assert_eq!(unfit(Sizes::<8, 8, 0>, 0), Some(Unfit::EraseSize));
    assert_eq!(unfit(Sizes::<4, 4, 64>, 0), Some(Unfit::Kind));
    assert_eq!(unfit(Sizes::<32, 32, 64>, 0), None);
    assert_eq!(unfit(Sizes::<8, 8, 64>, 64), None);
    let refused = NorDriver::new(Sizes::<4, 4, 64>, 0, SHAPE, Kind::Coded, Plain).err();
    assert_eq!(refused, Some(Unfit::Kind));
    assert!(NorDriver::new(Sizes::<8, 8, 64>, 0, SHAPE, Kind::Coded, Plain).is_ok());
    for kind in [Kind::Pairs, Kind::PairsClearing] {
        let refused = NorDriver::new(Sizes::<8, 8, 64>, 0, SHAPE, kind, Plain).err();
        assert_eq!(refused, Some(Unfit::Kind));
        assert!(NorDriver::new(Sizes::<1, 1, 64>, 0, SHAPE, kind, Plain).is_ok());
    }
}

/// The shape that a range of a flash of these sizes has.
fn shape_of<const W: usize, const S: usize>(start: u32, end: u32) -> Result<Shape, Unfit> {
    NorDriver::<Sizes<W, 1, S>>::shape_of(&(start..end))
}

#[test]
fn a_range_has_a_shape() {
    let shape = |pages, words| Ok(Shape::new(pages, words).unwrap());
    assert_eq!(shape_of::<4, 4096>(0xfe000, 0x100000), shape(1, 256));
    assert_eq!(shape_of::<8, 2048>(4096, 20480), shape(4, 256));
    assert_eq!(shape_of::<8, 16384>(0, 32768), shape(1, 512));
    assert_eq!(shape_of::<32, 8192>(0, 128 * 8192), shape(64, 256));
    assert_eq!(shape_of::<1, 80>(0, 160), shape(1, 5));
    assert_eq!(shape_of::<3, 48>(0, 96), Err(Unfit::WriteSize));
    assert_eq!(shape_of::<4, 4096>(2048, 8192), Err(Unfit::Offset));
    // No sector, one, three, 130, a part of one, and an end before the start.
    for end in [4096, 8192, 16384, 131 * 4096, 14336, 0] {
        assert_eq!(shape_of::<4, 4096>(4096, end), Err(Unfit::Length));
    }
    assert_eq!(shape_of::<4, 64>(0, 128), Err(Unfit::Sector));
    assert_eq!(shape_of::<4, 64>(0, 130 * 64), Err(Unfit::Length));
}

#[test]
fn a_store_over_a_range() {
    let mut store = Store::over(memory(), 48..144, Kind::Words).unwrap();
    assert_eq!(store.shape(), SHAPE);
    assert_eq!(store.write(Address::at(7), 1), Ok(Written::Appended));
    let part = store.into_driver().into_flash();
    let driver = NorDriver::new(part, 48, SHAPE, Kind::Words, Plain).unwrap();
    let store = Store::open_or_format(driver).unwrap();
    assert_eq!(store.read(Address::at(7)), Ok(Some(1)));
    let refused = |start, end, kind| Store::over(memory(), start..end, kind).err().unwrap();
    let rows = [
        (8, 96, Kind::Words, Unfit::Offset),
        (0, 144, Kind::Words, Unfit::Length),
        (144, 240, Kind::Words, Unfit::Capacity),
        (0, 96, Kind::Pairs, Unfit::Kind),
    ];
    for (start, end, kind, unfit) in rows {
        assert_eq!(refused(start, end, kind), OpenError::Unfit(unfit));
    }
}

/// A flash that another program wrote is refused, and nothing is written, whatever it writes at a time.
#[test]
fn foreign_units_are_refused() {
    for fill in [0x00, 0x2a, 0x7f] {
        let flash = Units::<16>(vec![fill; 160]);
        let refused = Store::over(flash, 0..160, Kind::Words).err();
        assert_eq!(refused, Some(OpenError::NoLiveSet), "{fill:#x}");
    }
}

/// A unit of 32 bytes is a value, its complement and zeros, or all ones; with another bit behind the first two it is torn.
#[test]
fn units_of_32_bytes() {
    let shape = Shape::new(1, 5).unwrap();
    let word_of = |bytes: [u8; 32]| {
        let flash = Units::<32>([&bytes[..], &[0xff; 288]].concat());
        let driver = NorDriver::new(flash, 0, shape, Kind::Words, Plain).unwrap();
        driver.word(0, 0).unwrap()
    };
    let mut whole = [0; 32];
    whole[..16].copy_from_slice(&(u128::from(!7u64) << 64 | 7).to_le_bytes());
    assert_eq!(word_of(whole), Word::Held(7));
    assert_eq!(word_of([0xff; 32]), Word::Erased);
    for place in 16..32 {
        for mut bytes in [whole, [0xff; 32]] {
            bytes[place] ^= 4;
            assert_eq!(word_of(bytes), Word::Torn);
        }
    }
}

/// An erase looks at its own page alone, whatever stands behind it.
#[test]
fn an_erase_looks_at_its_page() {
    let shape = Shape::new(1, 20).unwrap();
    let flash = Units::<8>(vec![0; 320]);
    let mut driver = NorDriver::new(flash, 0, shape, Kind::Words, Plain).unwrap();
    for page in [0, 1] {
        assert_eq!(driver.erase(page), Ok(()));
    }
}

/// A flash that writes so many bytes at a time. It is never written, and erased only where they are 8.
struct Units<const W: usize>(Vec<u8>);

impl<const W: usize> ErrorType for Units<W> {
    type Error = Broken;
}

impl<const W: usize> ReadNorFlash for Units<W> {
    const READ_SIZE: usize = 1;

    fn read(&mut self, offset: u32, bytes: &mut [u8]) -> Result<(), Broken> {
        bytes.copy_from_slice(&self.0[offset as usize..][..bytes.len()]);
        Ok(())
    }

    fn capacity(&self) -> usize {
        self.0.len()
    }
}

impl<const W: usize> NorFlash for Units<W> {
    const WRITE_SIZE: usize = W;
    const ERASE_SIZE: usize = 5 * W;

    fn erase(&mut self, from: u32, to: u32) -> Result<(), Broken> {
        assert_eq!(W, 8, "nothing is erased");
        self.0[from as usize..to as usize].fill(0xff);
        Ok(())
    }

    fn write(&mut self, _offset: u32, _bytes: &[u8]) -> Result<(), Broken> {
        unreachable!("nothing is written")
    }
}

/// Word 4 of page 0 has an ECC error.
struct Torn;

impl Ecc<Memory> for Torn {
    fn read_bytes(
        &self,
        flash: &mut Memory,
        byte: u32,
        bytes: &mut [u8],
    ) -> Result<Reading, Broken> {
        match byte {
            32 => Ok(Reading::Torn),
            _ => Plain.read_bytes(flash, byte, bytes),
        }
    }
}

// A store in a `static` can name its type.
type Kept = Store<NorDriver<Memory, Torn>>;

fn opened(memory: Memory) -> Kept {
    Store::open(NorDriver::new(memory, 0, SHAPE, Kind::Words, Torn).unwrap()).unwrap()
}

#[test]
fn errors_come_back() {
    let address = Address::new(7).unwrap();
    let mut part = memory();
    part.worn = Some(4 * 8);
    let mut store = Store::format(driver(part)).unwrap();
    let (step, page, at) = (Step::Program, 0, 4);
    let error = NorError::ReadBack;
    let lost = DriverError {
        step,
        page,
        at,
        error,
    };
    assert_eq!(store.write(address, 1), Err(Error::Driver(lost)));
    let mut part = store.into_driver().into_flash();
    part.worn = None;
    let mut store = opened(part);
    assert_eq!(store.fill(), Ok(1));
    assert_eq!(store.write(address, 2), Ok(Written::Appended));
    let mut part = store.into_driver().into_flash();
    part.fails = true;
    let mut store = opened(part);
    let (at, error) = (6, NorError::Flash(Broken));
    let failed = DriverError {
        step,
        page,
        at,
        error,
    };
    assert!(matches!(store.write(address, 3), Err(Error::Driver(it)) if it.error == failed.error));
    let fault = Store::open(driver(memory())).err().unwrap();
    assert_eq!(fault, OpenError::Unformatted);
}

#[test]
fn an_erase_is_read_back() {
    let mut part = memory();
    part.bytes.fill(0);
    part.lies = true;
    let mut driver = driver(part);
    let refused = Store::format(&mut driver).err();
    let (step, page, at) = (Step::Erase, 0, 0);
    let error = NorError::ReadBack;
    let lies = DriverError {
        step,
        page,
        at,
        error,
    };
    assert_eq!(refused, Some(OpenError::Driver(lies)));
    driver.flash_mut().lies = false;
    assert!(Store::format(driver).is_ok());
}

#[test]
fn a_read_that_fails_is_no_torn_word() {
    let address = Address::new(7).unwrap();
    let mut store = Store::format(driver(memory())).unwrap();
    assert_eq!(store.write(address, 1), Ok(Written::Appended));
    let mut part = store.into_driver();
    let bytes = part.flash_mut().bytes;
    for down in (0..96).step_by(8) {
        part.flash_mut().down = Some(down);
        if let Err(error) = Store::open_or_format(&mut part) {
            let OpenError::Driver(error) = error else {
                panic!("{error}")
            };
            assert_eq!(
                (error.step, error.error),
                (Step::Read, NorError::Flash(Broken))
            );
        }
        assert_eq!(part.flash_mut().bytes, bytes);
    }
    part.flash_mut().down = None;
    assert_eq!(Store::open(part).unwrap().read(address), Ok(Some(1)));
}

/// Notes which bytes are to be erased.
#[derive(Clone, Default)]
struct Told(Rc<RefCell<Vec<Range<u32>>>>);

impl Ecc<Memory> for Told {
    fn read_bytes(
        &self,
        flash: &mut Memory,
        byte: u32,
        bytes: &mut [u8],
    ) -> Result<Reading, Broken> {
        assert_eq!(bytes.len(), 8, "one word, since nothing says more");
        Plain.read_bytes(flash, byte, bytes)
    }

    fn erases(&self, bytes: Range<u32>) {
        self.0.borrow_mut().push(bytes);
    }
}

#[test]
fn a_reader_is_told_of_each_erase() {
    let told = Told::default();
    let mut part = memory();
    part.bytes.fill(0);
    let shape = Shape::new(1, 7).unwrap();
    let mut store =
        Store::format(NorDriver::new(part, 0, shape, Kind::Words, told.clone()).unwrap()).unwrap();
    assert_eq!(told.0.take(), [0..96, 96..192]);
    for value in 0..4 {
        store.write(Address::at(7), value).unwrap();
    }
    assert_eq!(store.clean_step(), Ok(true));
    assert_eq!(told.0.take(), vec![0..96; 1]);
}
