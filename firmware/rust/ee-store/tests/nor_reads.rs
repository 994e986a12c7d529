//! How often a driver over a `NorFlash` asks it to read, and how many bytes that are.

use ee_store::{Address, Kind, Store};
use embedded_storage::nor_flash::{
    ErrorType, NorFlash, NorFlashError, NorFlashErrorKind, ReadNorFlash,
};

#[derive(Clone, Copy, Debug, PartialEq, Eq)]
struct Never;

impl NorFlashError for Never {
    fn kind(&self) -> NorFlashErrorKind {
        NorFlashErrorKind::Other
    }
}

/// Eight sectors of 4 KiB, or of 8 KiB, written so many bytes at a time, and how it was read.
struct Counted<const WRITE: usize, const SECTOR: usize> {
    bytes: Vec<u8>,
    calls: usize,
    read: usize,
}

impl<const W: usize, const S: usize> ErrorType for Counted<W, S> {
    type Error = Never;
}

impl<const W: usize, const S: usize> ReadNorFlash for Counted<W, S> {
    const READ_SIZE: usize = 1;

    fn read(&mut self, offset: u32, bytes: &mut [u8]) -> Result<(), Never> {
        let start = offset as usize;
        bytes.copy_from_slice(&self.bytes[start..start + bytes.len()]);
        self.calls += 1;
        self.read += bytes.len();
        Ok(())
    }

    fn capacity(&self) -> usize {
        self.bytes.len()
    }
}

impl<const W: usize, const S: usize> NorFlash for Counted<W, S> {
    const WRITE_SIZE: usize = W;
    const ERASE_SIZE: usize = S;

    fn erase(&mut self, from: u32, to: u32) -> Result<(), Never> {
        self.bytes[from as usize..to as usize].fill(0xff);
        Ok(())
    }

    fn write(&mut self, offset: u32, bytes: &[u8]) -> Result<(), Never> {
        let start = offset as usize;
        self.bytes[start..start + bytes.len()].copy_from_slice(bytes);
        Ok(())
    }
}

/// The calls of `read`, and the bytes, since the last look.
fn looks<const W: usize, const S: usize>(flash: &mut Counted<W, S>) -> (usize, usize) {
    (
        std::mem::take(&mut flash.calls),
        std::mem::take(&mut flash.read),
    )
}

/// How often the flash is read, and how many bytes, in an opening: of a blank part, and of one with 500 writes.
fn counts<const W: usize, const S: usize>() -> [(usize, usize); 2] {
    let bytes = 8 * S;
    let mut flash = Counted::<W, S> {
        bytes: vec![0xff; bytes],
        calls: 0,
        read: 0,
    };
    let kind = if W < 8 { Kind::Pairs } else { Kind::Words };
    let mut counts = [(0, 0); 2];
    for count in &mut counts {
        let mut store = Store::over(flash, 0..bytes as u32, kind).unwrap();
        *count = looks(store.driver_mut().flash_mut());
        for value in 0..500 {
            store.write(Address::at(1), value).unwrap();
        }
        flash = store.into_driver().into_flash();
        looks(&mut flash);
    }
    counts
}

/// Word by word these were 6155 calls in an opening of pairs, and 4109 in one of words.
#[test]
fn the_flash_is_asked_for_several_words_at_once() {
    for ([made, opened], all) in [
        (counts::<1, 4096>(), 256),
        (counts::<8, 4096>(), 256),
        (counts::<16, 4096>(), 256),
        (counts::<32, 8192>(), 512),
    ] {
        println!("{made:?} {opened:?} of {all}");
        assert!(made.0 <= all * 9 / 2, "{made:?}");
        assert!(opened.0 <= 2 * all + 40, "{opened:?}");
    }
}
