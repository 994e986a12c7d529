// Made by strip from crates/ee_core/src/writing.rt. Change that file.
// SPDX-License-Identifier: MIT OR Apache-2.0
//! The appending of a change: where its slot begins a further page, two marks come first.

use crate::ee_core::change::Change;
use crate::ee_core::marking::mark_live;
use crate::ee_flash::{Cut, Flash, HEADER_WORDS};
use crate::ee_pages::{Layout, Mark, first_page};

/// Makes a change to which no refusal applies in the first free slot. If that slot is the first of a
/// further page, the page before it is marked valid and that one active first. The layout follows.
#[inline(always)]
pub fn append_change<F: Flash>(
    flash: &mut F,
    layout: &mut Layout,
    change: Change,
) -> Result<(), Cut> {
    let (page, at) = free_slot(flash, layout);
    open_page(flash, layout, page)?;
    push(flash, layout, page, at, change)?;
    layout.current = page;
    layout.fill += 1;
    Ok(())
}

/// The page of the first free slot, and the slot's place in it. The layout has the page in use, so
/// that this takes no division.
#[inline(always)]
fn free_slot<F: Flash>(flash: &F, layout: &Layout) -> (usize, usize) {
    let slots = flash.shape().words() - HEADER_WORDS;
    let used = layout.fill - (layout.current - first_page(flash, layout.side)) * slots;
    if used == slots {
        return (layout.current + 1, HEADER_WORDS);
    }
    (layout.current, HEADER_WORDS + used)
}

/// Marks the page of the first free slot, which is this one, as the one that is used, if it is a
/// further one, and the page before it as used up.
#[inline(always)]
fn open_page<F: Flash>(flash: &mut F, layout: &Layout, page: usize) -> Result<(), Cut> {
    if page == layout.current {
        return Ok(());
    }
    mark_live(flash, layout, layout.current, Mark::Valid)?;
    mark_live(flash, layout, layout.current + 1, Mark::Active)?;
    Ok(())
}

/// Programs a change into the first free slot of the live set, which stands in this
/// place of this page.
#[inline(always)]
fn push<F: Flash>(
    flash: &mut F,
    layout: &Layout,
    page: usize,
    at: usize,
    change: Change,
) -> Result<(), Cut> {
    flash.program(page, at, change.word())?;
    Ok(())
}
