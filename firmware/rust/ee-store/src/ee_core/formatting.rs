// Made by strip from crates/ee_core/src/formatting.rt. Change that file.
// SPDX-License-Identifier: MIT OR Apache-2.0
//! A store with nothing in it: what is written is erased, and the first set becomes the live one.

use crate::ee_flash::{Cut, Flash};
use crate::ee_pages::{Layout, Mark, Side, is_blank as page_is_blank, mark};

/// Erases what is not blank, makes the first set the live one with generation 1, and gives the
/// layout.
pub fn write_format<F: Flash>(flash: &mut F) -> Result<Layout, Cut> {
    erase_all(flash)?;
    mark(flash, 0, Mark::Receive(1))?;
    mark(flash, 0, Mark::Active)?;
    Ok(Layout {
        side: Side::First,
        generation: 1,
        fill: 0,
        current: 0,
    })
}

/// Erases each page that is not blank, by rising page.
fn erase_all<F: Flash>(flash: &mut F) -> Result<(), Cut> {
    for page in 0..2 * flash.shape().pages() {
        if !page_is_blank(flash, page) {
            flash.erase(page)?;
        }
    }
    Ok(())
}
