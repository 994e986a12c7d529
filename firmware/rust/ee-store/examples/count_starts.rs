//! Counts its starts over any flash of `embedded-storage`:
//!
//!     cargo run --example count_starts --features embedded-storage
//!
//! The flash is memory here, and its erase clears no cell. On a part it is the one that the HAL gives: change the range, and the
//! kind by the table of the readme.

use ee_store::{Address, Error, Kind, NorError, Store};
use embedded_storage::nor_flash::{
    ErrorType, NorFlash, NorFlashError, NorFlashErrorKind, ReadNorFlash,
};

const STARTS: Address = Address::at(1);

/// Counts a start in the last two sectors of a flash of 64 KiB, and gives the flash back.
fn count_starts<F: NorFlash>(flash: F) -> Result<(u32, F), Error<NorError<F::Error>>> {
    let mut store = Store::over(flash, 0xe000..0x10000, Kind::Pairs)?; // opens it, or makes it on a new part
    let starts = store.read_or(STARTS, 0)? + 1;
    store.write(STARTS, starts)?;
    Ok((starts, store.into_driver().into_flash()))
}

fn main() -> Result<(), Box<dyn std::error::Error>> {
    let mut flash = Memory {
        bytes: vec![0xff; 0x10000],
    };
    for wanted in 1..=300 {
        let (starts, same) = count_starts(flash)?;
        assert_eq!(starts, wanted);
        flash = same;
    }
    println!("300 starts");
    Ok(())
}

/// A flash in memory, without ECC, that writes 4 bytes and erases 4 KiB at a time.
struct Memory {
    bytes: Vec<u8>,
}

/// Its error, which never comes.
#[derive(Debug)]
struct Failed;

impl NorFlashError for Failed {
    fn kind(&self) -> NorFlashErrorKind {
        NorFlashErrorKind::Other
    }
}

impl ErrorType for Memory {
    type Error = Failed;
}

impl ReadNorFlash for Memory {
    const READ_SIZE: usize = 1;

    fn read(&mut self, offset: u32, bytes: &mut [u8]) -> Result<(), Failed> {
        let start = offset as usize;
        bytes.copy_from_slice(&self.bytes[start..start + bytes.len()]);
        Ok(())
    }

    fn capacity(&self) -> usize {
        self.bytes.len()
    }
}

impl NorFlash for Memory {
    const WRITE_SIZE: usize = 4;
    const ERASE_SIZE: usize = 4096;

    fn erase(&mut self, from: u32, to: u32) -> Result<(), Failed> {
        self.bytes[from as usize..to as usize].fill(0xff);
        Ok(())
    }

    fn write(&mut self, offset: u32, bytes: &[u8]) -> Result<(), Failed> {
        let start = offset as usize;
        for (cell, byte) in self.bytes[start..].iter_mut().zip(bytes) {
            *cell &= byte; // a write clears bits
        }
        Ok(())
    }
}
