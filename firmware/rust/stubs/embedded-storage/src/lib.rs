//! As much of `embedded-storage` 0.3 as `ee-store` and a flash for it use, by its documentation.
#![no_std]
#![forbid(unsafe_code)]

/// Flash that is erased by pages.
pub mod nor_flash {
    use core::fmt::Debug;

    /// An error of a flash.
    pub trait NorFlashError: Debug {
        /// Of which kind it is.
        fn kind(&self) -> NorFlashErrorKind;
    }

    /// The kinds of errors.
    #[derive(Clone, Copy, Debug, PartialEq, Eq, PartialOrd, Ord, Hash)]
    #[non_exhaustive]
    pub enum NorFlashErrorKind {
        /// Ends that are no ends of words or pages.
        NotAligned,
        /// Ends beyond the flash.
        OutOfBounds,
        /// Another one.
        Other,
    }

    impl NorFlashError for NorFlashErrorKind {
        fn kind(&self) -> NorFlashErrorKind {
            *self
        }
    }

    impl NorFlashError for core::convert::Infallible {
        fn kind(&self) -> NorFlashErrorKind {
            match *self {}
        }
    }

    /// What has errors.
    pub trait ErrorType {
        /// The errors.
        type Error: NorFlashError;
    }

    /// Flash that can be read.
    pub trait ReadNorFlash: ErrorType {
        /// The least number of bytes that are read.
        const READ_SIZE: usize;

        /// Reads bytes.
        fn read(&mut self, offset: u32, bytes: &mut [u8]) -> Result<(), Self::Error>;

        /// How many bytes there are.
        fn capacity(&self) -> usize;
    }

    /// Flash that can be written.
    pub trait NorFlash: ReadNorFlash {
        /// The least number of bytes that are written.
        const WRITE_SIZE: usize;

        /// The least number of bytes that are erased.
        const ERASE_SIZE: usize;

        /// Erases the bytes from `from` to before `to`.
        fn erase(&mut self, from: u32, to: u32) -> Result<(), Self::Error>;

        /// Writes bytes, which were erased before.
        fn write(&mut self, offset: u32, bytes: &[u8]) -> Result<(), Self::Error>;
    }

    /// Whether a flash has bytes that are to be read, and they are whole reads.
    pub fn check_read<F: ReadNorFlash>(
        flash: &F,
        offset: u32,
        length: usize,
    ) -> Result<(), NorFlashErrorKind> {
        check(flash, offset as usize, length, F::READ_SIZE)
    }

    /// Whether a flash has bytes that are to be erased, and they are whole sectors.
    pub fn check_erase<F: NorFlash>(
        flash: &F,
        from: u32,
        to: u32,
    ) -> Result<(), NorFlashErrorKind> {
        match to.checked_sub(from) {
            Some(length) => check(flash, from as usize, length as usize, F::ERASE_SIZE),
            None => Err(NorFlashErrorKind::OutOfBounds),
        }
    }

    /// Whether a flash has bytes that are to be written, and they are whole writes.
    pub fn check_write<F: NorFlash>(
        flash: &F,
        offset: u32,
        length: usize,
    ) -> Result<(), NorFlashErrorKind> {
        check(flash, offset as usize, length, F::WRITE_SIZE)
    }

    fn check<F: ReadNorFlash>(
        flash: &F,
        offset: usize,
        length: usize,
        unit: usize,
    ) -> Result<(), NorFlashErrorKind> {
        if length > flash.capacity() || offset > flash.capacity() - length {
            return Err(NorFlashErrorKind::OutOfBounds);
        }
        match offset % unit == 0 && length % unit == 0 {
            true => Ok(()),
            false => Err(NorFlashErrorKind::NotAligned),
        }
    }
}
