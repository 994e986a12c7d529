//! Settings in the last two pages of an nRF52840, by embassy's HAL.
//!
//! In `main`: `settings(Nvmc::new(p.NVMC))`, where `p` is what `embassy_nrf::init` gives.
#![no_std]
#![forbid(unsafe_code)]

use core::ops::Range;
use ee_store::nor::NorDriver;
use ee_store::{Kind, NorError, OpenError, Store};
use embassy_nrf::nvmc::{Error, Nvmc};

/// Two pages of 4 KiB, at the end of 1 MiB. A word of the store takes 16 bytes, so each holds 256. No manual says that an erase
/// doesn't clear cells first.
const RANGE: Range<u32> = 1016 * 1024..1024 * 1024;

/// The store, as it stands in a `static` or in a resource.
pub type Settings = Store<NorDriver<Nvmc<'static>>>;

/// Opens the settings, or makes them on a new part.
///
/// # Errors
///
/// Why there are none: the pages hold something else, or the flash fails.
pub fn settings(flash: Nvmc<'static>) -> Result<Settings, OpenError<NorError<Error>>> {
    Store::over(flash, RANGE, Kind::PairsClearing)
}
