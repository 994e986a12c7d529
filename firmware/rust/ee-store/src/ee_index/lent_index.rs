// Made by strip from crates/ee_index/src/lent_index.rt. Change that file.
// SPDX-License-Identifier: MIT OR Apache-2.0
//! Values are found by an index in memory that the caller lends, as long as it has room for them.

use crate::ee_index::entering::enter_slots;
use crate::ee_index::entries::Entry;
use crate::ee_index::index_changing::{enter_hidden, follow, leave_forgotten};
use crate::ee_index::lent_cursor::LentCursor;
use crate::ee_index::lent_list::LentList;
use crate::ee_index::listing::Listing;
use crate::ee_index::reading::{IndexCursor, batch_indexed, count_new, next_indexed, value_indexed};
use crate::ee_codec::Address;
use crate::ee_core::inner::{Change, Cursor, append_change, move_changes};
use crate::ee_core::{Lookup, NoMemory, Put, Slots};
use crate::ee_flash::{Cut, Flash};
use crate::ee_pages::{Layout, LiveBatch};

/// Finds values by an index in lent memory: the slot in which each live address stands. An address
/// for which it has no room makes it give itself up, and then the store looks through the slots. A
/// transfer or a clear brings it back, if there is room for all addresses that have a value then.
///
/// A store that is on has it given up only where the lent memory was too small. Behind some of the
/// used slots, counted from the first, more addresses had a value then than the memory has entries.
/// So whoever lends an entry for each address that ever has a value doesn't lose the index. Where
/// it is not given up, the memory has an entry for each address that has a value.
pub struct LentIndex<'a> {
    pub(crate) list: LentList<'a>,
    pub(crate) is_given_up: bool,
}

impl<'a> LentIndex<'a> {
    /// Given up: nothing was read yet.
    pub fn new(room: &'a mut [Entry]) -> LentIndex<'a> {
        LentIndex {
            list: LentList::new(room),
            is_given_up: true,
        }
    }

    /// Whether the index is given up, so that the store looks through the slots.
    #[must_use]
    pub fn is_given_up(&self) -> bool {
        self.is_given_up
    }

    /// Reads the index anew, one look at each used slot. It gives itself up where there is no room
    /// for an address.
    pub(crate) fn read<F: Flash>(&mut self, flash: &F, layout: &Layout) {
        self.list.clear();
        self.is_given_up = enter_slots(&mut self.list, flash, layout).is_err();
    }

    /// What a transfer copies by. It has not begun.
    fn cursor<F: Flash>(&self, _flash: &F, layout: &Layout) -> LentCursor<'_> {
        if self.is_given_up {
            return LentCursor::BySlots(Cursor::unread());
        }
        LentCursor::ByIndex(IndexCursor::new(&self.list, layout.fill))
    }

    /// Follows a transfer. Where the index is given up, it is read anew if there is room. Else more
    /// slots are used than there is room for addresses.
    fn follow<F: Flash>(&mut self, flash: &F, layout: &Layout, puts: &[Put], forgets: bool) {
        if !self.is_given_up {
            follow(&mut self.list, puts, forgets);
            return;
        }
        // Each used slot is that of a value.
        if layout.fill <= self.list.capacity() {
            self.read(flash, layout);
        }
    }
}

impl<'a> Lookup for LentIndex<'a> {
    fn value_of<F: Flash>(&self, flash: &F, layout: &Layout, address: Address) -> Option<u32> {
        if self.is_given_up {
            return Slots.value_of(flash, layout, address);
        }
        value_indexed(&self.list, flash, layout, address)
    }

    fn live_count<F: Flash>(&self, flash: &F, layout: &Layout) -> usize {
        if self.is_given_up {
            return Slots.live_count(flash, layout);
        }
        self.list.entries().len()
    }

    fn live_with<F: Flash>(&self, flash: &F, layout: &Layout, puts: &[Put]) -> usize {
        if self.is_given_up {
            return Slots.live_with(flash, layout, puts);
        }
        self.list.entries().len() + count_new(&self.list, puts)
    }

    fn next_live<F: Flash>(
        &self,
        flash: &F,
        layout: &Layout,
        after: Option<Address>,
    ) -> Option<(Address, u32)> {
        if self.is_given_up {
            return Slots.next_live(flash, layout, after);
        }
        next_indexed(&self.list, flash, layout, after)
    }

    fn next_batch<F: Flash>(
        &self,
        flash: &F,
        layout: &Layout,
        after: Option<Address>,
    ) -> LiveBatch {
        if self.is_given_up {
            return Slots.next_batch(flash, layout, after);
        }
        batch_indexed(&self.list, flash, layout, after)
    }

    fn make_ready<F: Flash>(
        &mut self,
        _flash: &F,
        layout: &Layout,
        put: Put,
    ) -> Result<(), NoMemory> {
        if self.is_given_up {
            return Ok(());
        }
        self.is_given_up = self.list.insert(put.address, layout.fill).is_err();
        Ok(())
    }

    fn make_room<F: Flash>(
        &mut self,
        _flash: &F,
        layout: &Layout,
        puts: &[Put],
    ) -> Result<(), NoMemory> {
        if self.is_given_up {
            return Ok(());
        }
        self.is_given_up = enter_hidden(&mut self.list, puts, layout.fill).is_err();
        Ok(())
    }

    fn read_anew<F: Flash>(&mut self, flash: &F, layout: &Layout) {
        self.read(flash, layout);
    }

    fn find_nothing(&mut self) {
        self.list.clear();
        self.is_given_up = false;
    }

    fn append<F: Flash>(
        &mut self,
        flash: &mut F,
        layout: &mut Layout,
        change: Change,
    ) -> Result<(), Cut> {
        append_change(flash, layout, change)?;
        // What stands in an index that is given up is never read.
        leave_forgotten(&mut self.list, &change);
        Ok(())
    }

    fn transfer<F: Flash>(
        &mut self,
        flash: &mut F,
        layout: &mut Layout,
        puts: &[Put],
        forgets: bool,
    ) -> Result<(), Cut> {
        let mut cursor = self.cursor(flash, layout);
        cursor.begin(flash, layout);
        move_changes(flash, layout, puts, forgets, &mut cursor)?;
        self.follow(flash, layout, puts, forgets);
        Ok(())
    }
}
