// Made by strip from crates/ee_index/src/lent_cursor.rt. Change that file.
// SPDX-License-Identifier: MIT OR Apache-2.0
//! What a transfer copies by, where an index may be given up.

use crate::ee_index::reading::IndexCursor;
use crate::ee_codec::Address;
use crate::ee_core::inner::{Cursor, LiveCursor};
use crate::ee_flash::Flash;
use crate::ee_pages::Layout;

/// Goes over the live addresses by an index, or through the slots if it is given up.
pub(crate) enum LentCursor<'a> {
    ByIndex(IndexCursor<'a>),
    BySlots(Cursor),
}

impl<'a> LentCursor<'a> {
    /// Begins before the first address. It begins where it stands, since a cursor over
    /// the slots is large.
    pub(crate) fn begin<F: Flash>(&mut self, flash: &F, layout: &Layout) {
        match self {
            LentCursor::ByIndex(_) => {}
            LentCursor::BySlots(cursor) => cursor.begin(flash, layout),
        }
    }
}

impl<'a> LiveCursor for LentCursor<'a> {
    fn next<F: Flash>(&mut self, flash: &F, layout: &Layout) -> Option<(Address, u32)> {
        match self {
            LentCursor::ByIndex(cursor) => cursor.next(flash, layout),
            LentCursor::BySlots(cursor) => cursor.next(flash, layout),
        }
    }
}
