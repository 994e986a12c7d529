// Made by strip from crates/ee_core/src/moving.rt. Change that file.
// SPDX-License-Identifier: MIT OR Apache-2.0
//! A transfer: the other set is erased, opened and filled, and one mark makes it the live one.

use crate::ee_core::change::Put;
use crate::ee_core::cleaning::erase_other;
use crate::ee_core::copying::{Cursor, Place, fill_set};
use crate::ee_core::live_cursor::LiveCursor;
use crate::ee_core::marking::finish;
use crate::ee_flash::{Cut, Flash};
use crate::ee_pages::{Layout, Mark, first_page, is_blank as page_is_blank, mark};

/// Moves the map, with values that are put or without their addresses, where these are forgotten,
/// to the other set, and makes that one live. The cursor, which is before the first, goes over the
/// live addresses. Of the layout it takes the set, in which any words may stand, and its
/// generation, no smaller than the one that the set is committed with. The layout follows.
pub(crate) fn transfer<F: Flash, C: LiveCursor>(
    flash: &mut F,
    layout: &mut Layout,
    puts: &[Put],
    forgets: bool,
    cursor: &mut C,
) -> Result<(), Cut> {
    let filled = move_map(flash, layout, puts, forgets, cursor)?;
    *layout = Layout {
        side: layout.side.other(),
        generation: layout.generation + 1,
        fill: filled.slot,
        current: filled.page,
    };
    finish(flash, layout)?;
    Ok(())
}

/// Moves the map as `transfer` does. It looks for the live addresses in the slots.
pub(crate) fn transfer_by_slots<F: Flash>(
    flash: &mut F,
    layout: &mut Layout,
    puts: &[Put],
    forgets: bool,
) -> Result<(), Cut> {
    let mut cursor = Cursor::new(flash, layout);
    transfer(flash, layout, puts, forgets, &mut cursor)?;
    Ok(())
}

/// Moves the map, with what it is to carry, to the other set, and makes that one live. Gives how
/// far that fills it.
fn move_map<F: Flash, C: LiveCursor>(
    flash: &mut F,
    layout: &Layout,
    puts: &[Put],
    forgets: bool,
    cursor: &mut C,
) -> Result<Place, Cut> {
    clear(flash, layout)?;
    open_set(flash, layout)?;
    let filled = fill_set(flash, layout, puts, forgets, cursor)?;
    commit(flash, layout)?;
    Ok(filled)
}

/// Makes the other set the live one with nothing in it, as `transfer` does with a map in which
/// nothing has a value. The layout follows.
pub(crate) fn transfer_nothing<F: Flash>(flash: &mut F, layout: &mut Layout) -> Result<(), Cut> {
    move_nothing(flash, layout)?;
    *layout = Layout {
        side: layout.side.other(),
        generation: layout.generation + 1,
        fill: 0,
        current: first_page(flash, layout.side.other()),
    };
    finish(flash, layout)?;
    Ok(())
}

/// Makes the other set the live one with nothing in it, but for the marks of its pages and of those
/// that it leaves.
fn move_nothing<F: Flash>(flash: &mut F, layout: &Layout) -> Result<(), Cut> {
    clear(flash, layout)?;
    open_set(flash, layout)?;
    commit(flash, layout)?;
    Ok(())
}

/// Erases each page of the other set that is not blank, by rising page.
fn clear<F: Flash>(flash: &mut F, layout: &Layout) -> Result<(), Cut> {
    let first = first_page(flash, layout.side.other());
    for page in first..first + flash.shape().pages() {
        if !page_is_blank(flash, page) {
            erase_other(flash, layout.side, page)?;
        }
    }
    Ok(())
}

/// Gives the first page of the other set, which is blank, the receive word of the next generation.
/// Like the one below it stands in both of its callers, where it takes less code than a call.
#[inline(always)]
fn open_set<F: Flash>(flash: &mut F, layout: &Layout) -> Result<(), Cut> {
    let first = first_page(flash, layout.side.other());
    mark(flash, first, Mark::Receive(layout.generation + 1))?;
    Ok(())
}

/// Makes the other set, which is filled, the live one.
#[inline(always)]
fn commit<F: Flash>(flash: &mut F, layout: &Layout) -> Result<(), Cut> {
    let first = first_page(flash, layout.side.other());
    mark(flash, first, Mark::Active)?;
    Ok(())
}
