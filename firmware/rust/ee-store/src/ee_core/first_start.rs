// Made by strip from crates/ee_core/src/first_start.rt. Change that file.
// SPDX-License-Identifier: MIT OR Apache-2.0
//! The call for whenever a device is switched on: it opens the store, or makes the first one.

use crate::ee_core::formatting::write_format;
use crate::ee_core::opening::{OpenFault, open_on};
use crate::ee_core::store::Store;
use crate::ee_flash::{Cut, Flash, HEADER_WORDS, Word};
use crate::ee_pages::{Layout, ScanFault};

/// Opens the store of a device that is on, as `open` does, or makes the first one, as `format`
/// does: on a device in which no set is committed and each word behind a page's header is erased or
/// torn. So it is the call to make whenever the device is switched on: a first start in which power
/// is cut is made again, and no word that may be a value is ever erased.
///
/// # Errors
///
/// The device and the first `OpenFault` that applies. At a fault of the scan nothing changed. After
/// a cut the variables are as before: in a first start there are none.
pub fn start<F: Flash>(flash: F) -> Result<Store<F>, (F, OpenFault)> {
    let mut flash = flash;
    match start_on(&mut flash) {
        Ok(layout) => Ok(Store::of(flash, layout)),
        Err(fault) => Err((flash, fault)),
    }
}

/// `start` in place: the layout of the store that the device becomes.
pub fn start_on<F: Flash>(flash: &mut F) -> Result<Layout, OpenFault> {
    let fault = match open_on(flash) {
        Ok(layout) => return Ok(layout),
        Err(fault) => fault,
    };
    let OpenFault::Scan(scan) = fault else {
        return Err(fault);
    };
    if !is_startable(flash, scan) {
        return Err(fault);
    }
    start_anew(flash)
}

/// Whether a device of which a scan says this can be started.
fn is_startable<F: Flash>(flash: &F, fault: ScanFault) -> bool {
    match fault {
        ScanFault::Unformatted => true,
        ScanFault::NoLiveSet => holds_none(flash),
        ScanFault::TwoLive => false,
        ScanFault::Foreign { .. } => false,
    }
}

/// Whether each word behind a page's header is erased or torn.
fn holds_none<F: Flash>(flash: &F) -> bool {
    for page in 0..2 * flash.shape().pages() {
        if page_holds(flash, page) {
            return false;
        }
    }
    true
}

/// Whether a word behind the header of a page can be read.
fn page_holds<F: Flash>(flash: &F, page: usize) -> bool {
    for at in HEADER_WORDS..flash.shape().words() {
        if let Word::Held(_) = flash.word(page, at) {
            return true;
        }
    }
    false
}

/// Makes the first store.
fn start_anew<F: Flash>(flash: &mut F) -> Result<Layout, OpenFault> {
    match write_format(flash) {
        Ok(layout) => Ok(layout),
        Err(Cut) => Err(OpenFault::Cut),
    }
}
