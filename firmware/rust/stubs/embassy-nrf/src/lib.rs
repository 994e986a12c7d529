//! As much of `embassy-nrf` as `firmware/rust/boards` uses, by its documentation.
#![no_std]
#![forbid(unsafe_code)]

/// The flash of the part.
pub mod nvmc {
    use core::marker::PhantomData;
    use embedded_storage::nor_flash::{
        ErrorType, NorFlash, NorFlashError, NorFlashErrorKind, ReadNorFlash,
    };

    /// Why the flash failed.
    #[derive(Clone, Copy, Debug, PartialEq, Eq)]
    pub struct Error;

    impl NorFlashError for Error {
        fn kind(&self) -> NorFlashErrorKind {
            NorFlashErrorKind::Other
        }
    }

    /// The flash.
    #[derive(Debug)]
    pub struct Nvmc<'d>(PhantomData<&'d ()>);

    impl ErrorType for Nvmc<'_> {
        type Error = Error;
    }

    impl ReadNorFlash for Nvmc<'_> {
        const READ_SIZE: usize = 1;

        fn read(&mut self, _offset: u32, _bytes: &mut [u8]) -> Result<(), Error> {
            Err(Error)
        }

        fn capacity(&self) -> usize {
            1024 * 1024
        }
    }

    impl NorFlash for Nvmc<'_> {
        const WRITE_SIZE: usize = 4;
        const ERASE_SIZE: usize = 4096;

        fn erase(&mut self, _from: u32, _to: u32) -> Result<(), Error> {
            Err(Error)
        }

        fn write(&mut self, _offset: u32, _bytes: &[u8]) -> Result<(), Error> {
            Err(Error)
        }
    }
}
