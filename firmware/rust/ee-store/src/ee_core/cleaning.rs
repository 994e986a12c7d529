// Made by strip from crates/ee_core/src/cleaning.rt. Change that file.
// SPDX-License-Identifier: MIT OR Apache-2.0
//! The set that isn't live: how many of its pages wait to be erased, and the erasing of one.

use crate::ee_flash::{Cut, Flash};
use crate::ee_pages::{Layout, Side, first_page, is_blank as page_is_blank};

/// Erases the lowest page of the other set that is not blank. `false` if there is none.
pub fn clean<F: Flash>(flash: &mut F, layout: &Layout) -> Result<bool, Cut> {
    let Some(page) = first_pending(flash, layout.side.other()) else {
        return Ok(false);
    };
    erase_other(flash, layout.side, page)?;
    Ok(true)
}

/// Erases a page, which is not blank, of the other set, whatever stands in either.
pub(crate) fn erase_other<F: Flash>(flash: &mut F, side: Side, page: usize) -> Result<(), Cut> {
    flash.erase(page)?;
    Ok(())
}

/// The lowest page of a set that is not blank, by its number in the device.
fn first_pending<F: Flash>(flash: &F, side: Side) -> Option<usize> {
    let first = first_page(flash, side);
    for page in first..first + flash.shape().pages() {
        if !page_is_blank(flash, page) {
            return Some(page);
        }
    }
    None
}

/// How many pages of a set are not blank, 0 to 64. Those of the set that is not live wait to be
/// erased.
pub fn count_pending<F: Flash>(flash: &F, side: Side) -> usize {
    let first = first_page(flash, side);
    let mut count = 0;
    for page in first..first + flash.shape().pages() {
        if !page_is_blank(flash, page) {
            count += 1;
        }
    }
    count
}
