//! The same store for drivers whose reads and steps are futures, by the feature `async`: while the flash is at work, other tasks
//! run. Its calls have the names of those at the top of the crate, and so have what its driver owes.
//!
//! ```
//! use ee_store::asynch::{Driver, Store};
//! use ee_store::{Address, Error, Kind, Shape, Word};
//!
//! /// A serial flash: each call ends by its interrupt.
//! pub trait Bus {
//!     async fn read(&self, byte: usize) -> Result<u64, Failed>;
//!     async fn program(&mut self, byte: usize, value: u64) -> Result<(), Failed>;
//!     async fn erase(&mut self, byte: usize) -> Result<(), Failed>;
//! }
//!
//! /// Two sectors of it, of 256 words of two numbers each.
//! pub struct Part<B>(pub B);
//!
//! #[derive(Debug)]
//! pub struct Failed;
//!
//! impl<B: Bus> Driver for Part<B> {
//!     type Error = Failed;
//!
//!     fn shape(&self) -> Shape {
//!         Shape::new(1, 256).unwrap()
//!     }
//!
//!     fn kind(&self) -> Kind {
//!         Kind::PairsClearing
//!     }
//!
//!     async fn word(&self, page: usize, at: usize) -> Result<Word, Failed> {
//!         Ok(Word::from(self.0.read(4096 * page + 8 * at).await?))
//!     }
//!
//!     async fn program(&mut self, page: usize, at: usize, value: u64) -> Result<(), Failed> {
//!         self.0.program(4096 * page + 8 * at, value).await
//!     }
//!
//!     async fn erase(&mut self, page: usize) -> Result<(), Failed> {
//!         self.0.erase(4096 * page).await
//!     }
//! }
//!
//! /// Counts the starts.
//! pub async fn count_starts<D: Driver>(driver: D) -> Result<u32, Error<D::Error>> {
//!     let mut store = Store::open_or_format(driver).await?;
//!     let starts = store.read_or(Address::at(1), 0).await? + 1;
//!     store.write(Address::at(1), starts).await?;
//!     Ok(starts)
//! }
//! ```
//!
//! A driver of mapped flash gives words by `window`, which is no future, or in futures that are ready at once. A step lets other
//! tasks run only where the HAL's future waits: some HALs have an async `NorFlash` that blocks. While a part programs or erases the
//! flash that the program runs from, its core may stall in any case.
//!
//! # A future that is dropped is a power cut
//!
//! Drop the future of a call where you like, as `select` and timeouts do. What was stored is there. The change that the call was to
//! make is there or is not, and several values of one `write_all` are there all or none.
//!
//! - Dropped before its first poll, it did nothing. A call that changes nothing may be dropped at any time.
//! - A change that is dropped behind its first poll leaves the store **off**: the flash may still be at work, and a word may be
//!   programmed that the store doesn't know of. Each call answers [`Error::NotOpen`] then. Wait until the flash is idle, and call
//!   `reopen`.
//! - A driver whose step is dropped owes what a driver owes at an error: its word, or the words of its page, are as before, as
//!   asked for, or torn. It sees to it that the flash is idle before it begins another step.
//! - The future of an opening has the driver, which goes with it: lend it by `Store::open_or_format(&mut driver)`.
//!
//! Two reads of one store may be polled in turn: `nor::NorDriver` lets the second wait. The futures aren't `Send`, since a store notes
//! in a cell where its driver failed.
//!
//! The modules behind it are made as the package is built, by `build.rs`, of the files of this crate: each function that reads or
//! steps is `async` there, and its calls are `.await`ed.
// A driver's futures are what the driver makes of them.
#![allow(async_fn_in_trait)]

#[cfg(feature = "embedded-storage-async")]
mod storage;

include!(concat!(env!("OUT_DIR"), "/asynch/modules.rs"));

use crate::{error, value};
pub use crate::{
    Address, DriverError, Error, IndexMemory, Kind, NoAddress, NorError, OpenError, Put, Rescued,
    Shape, Step, Unfit, Value, Word, Written,
};
pub use driver::Driver;
pub use ee_index::LentIndex;
pub use ee_records::Record;
pub use iter::Iter;
pub use store::{Finds, Store};
