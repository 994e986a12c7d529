//! Settings in the last two sectors of 2 MiB of flash on an RP2040, by embassy's HAL.
//!
//! In `main`: `settings(Flash::new_blocking(p.FLASH))`, where `p` is what `embassy_rp::init` gives.
#![no_std]
#![forbid(unsafe_code)]

use core::ops::Range;
use ee_store::nor::NorDriver;
use ee_store::{Kind, NorError, OpenError, Store};
use embassy_rp::flash::{Blocking, Error, Flash};
use embassy_rp::peripherals::FLASH;

const SIZE: usize = 2 * 1024 * 1024;
/// Two sectors of 4 KiB. A word of the store takes 16 bytes, so each holds 256.
const RANGE: Range<u32> = SIZE as u32 - 2 * 4096..SIZE as u32;

/// The store, as it stands in a `static` or in a resource. Many serial flashes clear a sector's cells before they erase it.
pub type Settings = Store<NorDriver<Flash<'static, FLASH, Blocking, SIZE>>>;

/// Opens the settings, or makes them on a new part.
///
/// # Errors
///
/// Why there are none: the sectors hold something else, or the flash fails.
pub fn settings(
    flash: Flash<'static, FLASH, Blocking, SIZE>,
) -> Result<Settings, OpenError<NorError<Error>>> {
    Store::over(flash, RANGE, Kind::PairsClearing)
}
