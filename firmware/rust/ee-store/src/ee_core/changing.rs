// Made by strip from crates/ee_core/src/changing.rt. Change that file.
// SPDX-License-Identifier: MIT OR Apache-2.0
//! The making of changes that nothing refuses with a transfer.

use crate::ee_core::change::Put;
use crate::ee_core::live_cursor::LiveCursor;
use crate::ee_core::moving::{transfer, transfer_by_slots, transfer_nothing};
use crate::ee_flash::{Cut, Flash};
use crate::ee_pages::Layout;

/// Makes changes to which no refusal applies with a transfer that they need, as
/// `move_changes` does, in a store without an index: it looks for the live addresses in the
/// slots. The layout follows.
pub(crate) fn move_unindexed<F: Flash>(
    flash: &mut F,
    layout: &mut Layout,
    puts: &[Put],
    forgets: bool,
) -> Result<(), Cut> {
    transfer_by_slots(flash, layout, puts, forgets)?;
    Ok(())
}

/// Makes changes to which no refusal applies with a transfer that they need: values that are put,
/// or the forgettings of their addresses. The cursor, which is before the first, goes over the live
/// addresses. The layout follows.
pub fn move_changes<F: Flash, C: LiveCursor>(
    flash: &mut F,
    layout: &mut Layout,
    puts: &[Put],
    forgets: bool,
    cursor: &mut C,
) -> Result<(), Cut> {
    transfer(flash, layout, puts, forgets, cursor)?;
    Ok(())
}

/// Makes a clear to which no refusal applies. The layout follows.
pub(crate) fn empty<F: Flash>(flash: &mut F, layout: &mut Layout) -> Result<(), Cut> {
    transfer_nothing(flash, layout)?;
    Ok(())
}
