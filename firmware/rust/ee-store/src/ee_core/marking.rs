// Made by strip from crates/ee_core/src/marking.rt. Change that file.
// SPDX-License-Identifier: MIT OR Apache-2.0
//! The marks that a transfer or a cut left to set: pages used up, the page in use,
//! pages to be erased.

use crate::ee_flash::{Cut, Flash};
use crate::ee_pages::{Layout, Mark, first_page, is_blank as page_is_blank, mark};

/// Sets the marks that a transfer or a cut left to set: in the live set the pages before the last
/// used one become valid and that one active, in the other set each page that is not blank becomes
/// one that may be erased. A mark whose word is written already takes no step.
pub fn finish<F: Flash>(flash: &mut F, layout: &Layout) -> Result<(), Cut> {
    mark_live_set(flash, layout)?;
    mark_old_set(flash, layout)?;
    Ok(())
}

/// Marks the pages of the live set: those before the last used one, and that one.
fn mark_live_set<F: Flash>(flash: &mut F, layout: &Layout) -> Result<(), Cut> {
    let first = first_page(flash, layout.side);
    for page in first..layout.current {
        mark_live(flash, layout, page, Mark::Valid)?;
    }
    mark_live(flash, layout, layout.current, Mark::Active)?;
    Ok(())
}

/// Marks the pages of the other set that are not blank.
fn mark_old_set<F: Flash>(flash: &mut F, layout: &Layout) -> Result<(), Cut> {
    let first = first_page(flash, layout.side.other());
    for page in first..first + flash.shape().pages() {
        if !page_is_blank(flash, page) {
            mark_old(flash, layout, page)?;
        }
    }
    Ok(())
}

/// Sets an active or valid mark of a page of the live set, behind written slots.
pub(crate) fn mark_live<F: Flash>(
    flash: &mut F,
    layout: &Layout,
    page: usize,
    kind: Mark,
) -> Result<(), Cut> {
    mark(flash, page, kind)?;
    Ok(())
}

/// Marks a page of the other set, which is not blank, as one that may be erased.
fn mark_old<F: Flash>(flash: &mut F, layout: &Layout, page: usize) -> Result<(), Cut> {
    mark(flash, page, Mark::Erasing)?;
    Ok(())
}
