// Made by strip from crates/ee_core/src/live_cursor.rt. Change that file.
// SPDX-License-Identifier: MIT OR Apache-2.0
//! What a transfer copies by: a way over the live addresses, of which each store has its own.

use crate::ee_codec::Address;
use crate::ee_flash::Flash;
use crate::ee_pages::Layout;

/// Goes over the live addresses of a set, by rising address. A transfer copies by it, and
/// each store has its own.
pub trait LiveCursor {
    /// The next live address, with its value. `None` if there is none.
    fn next<F: Flash>(&mut self, flash: &F, layout: &Layout) -> Option<(Address, u32)>;
}
