//! As much of `embedded-storage-async` 0.4 as `ee-store` uses, by its documentation.
#![no_std]
#![forbid(unsafe_code)]
#![allow(async_fn_in_trait)]

/// Flash that is erased by pages.
pub mod nor_flash {
    pub use embedded_storage::nor_flash::{ErrorType, NorFlashError, NorFlashErrorKind};

    /// Flash that can be read.
    pub trait ReadNorFlash: ErrorType {
        /// The least number of bytes that are read.
        const READ_SIZE: usize;

        /// Reads bytes.
        async fn read(&mut self, offset: u32, bytes: &mut [u8]) -> Result<(), Self::Error>;

        /// How many bytes there are.
        fn capacity(&self) -> usize;
    }

    /// Flash that can be written.
    pub trait NorFlash: ReadNorFlash {
        /// The least number of bytes that are written.
        const WRITE_SIZE: usize;

        /// The least number of bytes that are erased.
        const ERASE_SIZE: usize;

        /// Erases the bytes from `from` to before `to`.
        async fn erase(&mut self, from: u32, to: u32) -> Result<(), Self::Error>;

        /// Writes bytes, which were erased before.
        async fn write(&mut self, offset: u32, bytes: &[u8]) -> Result<(), Self::Error>;
    }
}
