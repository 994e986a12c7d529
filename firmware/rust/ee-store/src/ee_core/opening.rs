// Made by strip from crates/ee_core/src/opening.rt. Change that file.
// SPDX-License-Identifier: MIT OR Apache-2.0
//! How a store comes to be: opened from a legal image, or made anew on any device.

use crate::ee_core::formatting::write_format;
use crate::ee_core::marking::finish;
use crate::ee_core::store::Store;
use crate::ee_flash::{Cut, Flash};
use crate::ee_pages::{Layout, ScanFault, scan};

/// Why a device can't be opened, the first cause that applies.
#[derive(Clone, Copy, Debug, PartialEq, Eq)]
pub enum OpenFault {
    /// The image is not legal. Nothing changed.
    Scan(ScanFault),
    /// Power failed in setting a mark. The device is off; its variables are as before.
    Cut,
}

/// Opens the store of a legal image, on a device that is on, and sets the marks that a cut left to
/// set. The variables are as before. Where no mark was left it takes no step.
///
/// # Errors
///
/// The device and the first `OpenFault` that applies.
pub fn open<F: Flash>(flash: F) -> Result<Store<F>, (F, OpenFault)> {
    let mut flash = flash;
    match open_on(&mut flash) {
        Ok(layout) => Ok(Store::of(flash, layout)),
        Err(fault) => Err((flash, fault)),
    }
}

/// `open` in place: the layout of the store that the device becomes.
pub fn open_on<F: Flash>(flash: &mut F) -> Result<Layout, OpenFault> {
    let layout = match scan(flash) {
        Ok(layout) => layout,
        Err(fault) => return Err(OpenFault::Scan(fault)),
    };
    match finish(flash, &layout) {
        Ok(()) => Ok(layout),
        Err(Cut) => Err(OpenFault::Cut),
    }
}

/// Makes a store with nothing in it, of a device that is on: each page that is not blank is erased,
/// by rising page, and the first set becomes the live set with generation 1.
///
/// # Errors
///
/// The device, off: power failed. What it held is gone in part, until a `format` ends.
pub fn format<F: Flash>(flash: F) -> Result<Store<F>, (F, Cut)> {
    let mut flash = flash;
    match write_format(&mut flash) {
        Ok(layout) => Ok(Store::of(flash, layout)),
        Err(cut) => Err((flash, cut)),
    }
}
