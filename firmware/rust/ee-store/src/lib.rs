// SPDX-License-Identifier: MIT OR Apache-2.0
// The page has programs over each feature.
#![cfg_attr(
    all(feature = "defmt", feature = "embedded-storage", feature = "embedded-storage-async"),
    doc = include_str!("../README.md")
)]
#![cfg_attr(
    not(all(
        feature = "defmt",
        feature = "embedded-storage",
        feature = "embedded-storage-async"
    )),
    doc = "Variables of 32 bits in flash, through power cuts: the README of this package says all."
)]
#![no_std]
#![forbid(unsafe_code)]

// These seven are the proved sources with their contracts left out (`strip`). Some of their parameters
// are named by contracts alone, some items serve other programs, and loops are written as their proofs want them.
#[allow(dead_code, unused_imports, unused_variables)]
#[allow(clippy::complexity, clippy::style)]
#[rustfmt::skip]
mod ee_codec;
#[allow(dead_code, unused_imports, unused_variables)]
#[allow(clippy::complexity, clippy::style)]
#[rustfmt::skip]
mod ee_core;
#[allow(dead_code, unused_imports, unused_variables)]
#[allow(clippy::complexity, clippy::style)]
#[rustfmt::skip]
mod ee_flash;
#[allow(dead_code, unused_imports, unused_variables)]
// A cursor over an index that may be given up stands on the stack for a transfer.
#[allow(clippy::complexity, clippy::perf, clippy::style)]
#[rustfmt::skip]
mod ee_index;
#[allow(dead_code, unused_imports, unused_variables)]
#[allow(clippy::complexity, clippy::style)]
#[rustfmt::skip]
mod ee_pages;
#[allow(dead_code, unused_imports, unused_variables)]
#[allow(clippy::complexity, clippy::style)]
#[rustfmt::skip]
mod ee_nor;
#[allow(dead_code, unused_imports, unused_variables)]
#[allow(clippy::complexity, clippy::must_use_candidate, clippy::style)]
#[rustfmt::skip]
mod ee_records;

#[cfg(feature = "async")]
pub mod asynch;
mod driver;
mod each;
mod error;
mod index;
mod iter;
#[cfg(feature = "defmt")]
mod logged;
#[cfg(feature = "embedded-storage")]
pub mod nor;
mod part;
mod records;
#[cfg(feature = "embedded-storage")]
mod storage;
mod store;
/// A number that no address has is refused when a constant is made of it.
///
/// ```compile_fail
/// const NONE: ee_store::Address = ee_store::Address::at(0);
/// ```
///
/// ```compile_fail
/// const NONE: ee_store::Address = ee_store::Address::at(65535);
/// ```
mod value;

pub use crate::ee_codec::Address;
pub use crate::ee_core::{Put, Rescued, Wanted, Written};
pub use crate::ee_flash::{Shape, Word};
pub use crate::ee_index::LentIndex;
pub use crate::ee_records::Record;
pub use driver::{Driver, Kind};
pub use error::{DriverError, Error, NorError, OpenError, Step, Unfit};
pub use index::IndexMemory;
pub use iter::Iter;
pub use store::{Finds, Store};
pub use value::{NoAddress, Value};

/// What `firmware/c` of the repository is made over, and no part of this package's interface: the proved store, on a device that
/// has to keep the contract of `Flash`.
#[cfg(feature = "proved")]
#[doc(hidden)]
pub mod proved {
    pub use crate::ee_core::inner::{open_on, start_on, store_of, write_format, Known};
    pub use crate::ee_core::{
        bad_words, format, open, rescue, rescue_uncounted, ClearFault, ForgetFault, Lookup,
        OpenFault, RescueFault, Slots, Store, Variables, WriteAllFault, WriteFault,
    };
    pub use crate::ee_flash::{Cut, Flash};
    pub use crate::ee_index::{Entry, LentIndex};
    pub use crate::ee_nor::coded::{Coded, EccNor};
    pub use crate::ee_nor::{Nor, Pairs};
    pub use crate::ee_pages::ScanFault;
    pub use crate::part::holds_more;
}
