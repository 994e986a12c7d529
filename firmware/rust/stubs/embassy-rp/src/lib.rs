//! As much of `embassy-rp` as `firmware/rust/boards` uses, by its documentation.
#![no_std]
#![forbid(unsafe_code)]

/// The peripherals.
pub mod peripherals {
    /// The flash.
    #[derive(Debug)]
    pub struct FLASH;
}

/// The flash of the board.
pub mod flash {
    use core::marker::PhantomData;
    use embedded_storage::nor_flash::{
        ErrorType, NorFlash, NorFlashError, NorFlashErrorKind, ReadNorFlash,
    };

    /// Why the flash failed.
    #[derive(Clone, Copy, Debug, PartialEq, Eq)]
    pub struct Error;

    impl NorFlashError for Error {
        fn kind(&self) -> NorFlashErrorKind {
            NorFlashErrorKind::Other
        }
    }

    /// Its calls wait.
    #[derive(Debug)]
    pub struct Blocking;

    /// The flash.
    #[derive(Debug)]
    pub struct Flash<'d, T, M, const SIZE: usize>(PhantomData<(&'d (), T, M)>);

    impl<T, M, const SIZE: usize> ErrorType for Flash<'_, T, M, SIZE> {
        type Error = Error;
    }

    impl<T, M, const SIZE: usize> ReadNorFlash for Flash<'_, T, M, SIZE> {
        const READ_SIZE: usize = 1;

        fn read(&mut self, _offset: u32, _bytes: &mut [u8]) -> Result<(), Error> {
            Err(Error)
        }

        fn capacity(&self) -> usize {
            SIZE
        }
    }

    impl<T, M, const SIZE: usize> NorFlash for Flash<'_, T, M, SIZE> {
        const WRITE_SIZE: usize = 1;
        const ERASE_SIZE: usize = 4096;

        fn erase(&mut self, _from: u32, _to: u32) -> Result<(), Error> {
            Err(Error)
        }

        fn write(&mut self, _offset: u32, _bytes: &[u8]) -> Result<(), Error> {
            Err(Error)
        }
    }
}
