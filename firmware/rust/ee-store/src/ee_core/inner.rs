// Made by strip from crates/ee_core/src/inner.rt. Change that file.
// SPDX-License-Identifier: MIT OR Apache-2.0
//! The parts of a call, for `ee_index` alone, whose look-up makes each change by them; those of a
//! store, for `ee_index` and `ee_replay`, which change the look-up, and arm the device in memory
//! that a store keeps; and openings in place, for `ee_replay` and the C library.

pub use crate::ee_core::change::Change;
pub use crate::ee_core::changing::move_changes;
pub use crate::ee_core::cleaning::clean;
pub use crate::ee_core::copying::Cursor;
pub use crate::ee_core::first_start::start_on;
pub use crate::ee_core::formatting::write_format;
pub use crate::ee_core::known::Known;
pub use crate::ee_core::live_cursor::LiveCursor;
use crate::ee_core::lookup::Lookup;
pub use crate::ee_core::marking::finish;
pub use crate::ee_core::opening::open_on;
pub use crate::ee_core::puts::{first_twice, values_put};
pub use crate::ee_core::store::GREATEST_GENERATION;
use crate::ee_core::store::Store;
pub use crate::ee_core::writing::append_change;
use crate::ee_flash::Flash;

/// The device of a store, as it is, and what is known of it.
pub fn parts_of<F: Flash, L: Lookup>(store: Store<F, L>) -> (F, Known<L>) {
    (store.flash, store.known)
}

/// The store of this device, of which this is known.
pub fn store_of<F: Flash, L: Lookup>(flash: F, known: Known<L>) -> Store<F, L> {
    Store { flash, known }
}
