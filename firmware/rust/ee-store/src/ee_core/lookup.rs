// Made by strip from crates/ee_core/src/lookup.rt. Change that file.
// SPDX-License-Identifier: MIT OR Apache-2.0
//! How a store finds values, and makes the changes that nothing refuses: each kind of store has a
//! look-up of its own.

use crate::ee_core::change::{Change, Put};
use crate::ee_core::changing::move_unindexed;
use crate::ee_core::puts::live_with;
use crate::ee_core::writing::append_change;
use crate::ee_codec::Address;
use crate::ee_flash::{Cut, Flash};
use crate::ee_pages::{Layout, LiveBatch, latest, live_count, next_batch, next_live};

/// Memory ran out.
#[derive(Clone, Copy, Debug, PartialEq, Eq)]
pub struct NoMemory;

/// How a store finds the value of an address. A look-up may keep something in memory, and makes
/// each change itself, so that what it keeps follows.
pub trait Lookup {
    /// The value of an address, `None` if it has none.
    fn value_of<F: Flash>(&self, flash: &F, layout: &Layout, address: Address) -> Option<u32>;

    /// How many addresses have a value.
    fn live_count<F: Flash>(&self, flash: &F, layout: &Layout) -> usize;

    /// How many addresses have a value with these values, each of which is of an
    /// address of its own.
    fn live_with<F: Flash>(&self, flash: &F, layout: &Layout, puts: &[Put]) -> usize;

    /// The next live address above `after`, or of all if `after` is `None`, with its value.
    fn next_live<F: Flash>(
        &self,
        flash: &F,
        layout: &Layout,
        after: Option<Address>,
    ) -> Option<(Address, u32)>;

    /// The next live addresses above `after`, or the first of all if `after` is `None`.
    fn next_batch<F: Flash>(&self, flash: &F, layout: &Layout, after: Option<Address>) -> LiveBatch;

    /// Makes ready for a value in the first free slot. An `Err`, which only a new address meets,
    /// leaves it as it was.
    fn make_ready<F: Flash>(&mut self, flash: &F, layout: &Layout, put: Put) -> Result<(), NoMemory>;

    /// Makes room for a transfer with these values. An `Err`, which only a new address meets,
    /// leaves it as it was.
    fn make_room<F: Flash>(
        &mut self,
        flash: &F,
        layout: &Layout,
        puts: &[Put],
    ) -> Result<(), NoMemory>;

    /// Reads anew what it keeps in lent memory. It takes no more memory than it has.
    fn read_anew<F: Flash>(&mut self, flash: &F, layout: &Layout);

    /// Follows a clear: it finds nothing from here on.
    fn find_nothing(&mut self);

    /// Makes a change to which no refusal applies in the first free slot. The layout and
    /// the look-up follow.
    fn append<F: Flash>(
        &mut self,
        flash: &mut F,
        layout: &mut Layout,
        change: Change,
    ) -> Result<(), Cut>;

    /// Makes changes to which no refusal applies with a transfer that they need. The layout and
    /// the look-up follow.
    fn transfer<F: Flash>(
        &mut self,
        flash: &mut F,
        layout: &mut Layout,
        puts: &[Put],
        forgets: bool,
    ) -> Result<(), Cut>;
}

/// Looks through the slots, and keeps nothing in memory.
#[derive(Clone, Copy)]
pub struct Slots;

impl Lookup for Slots {
    #[inline(always)]
    fn value_of<F: Flash>(&self, flash: &F, layout: &Layout, address: Address) -> Option<u32> {
        latest(flash, layout, address)
    }

    #[inline(always)]
    fn live_count<F: Flash>(&self, flash: &F, layout: &Layout) -> usize {
        live_count(flash, layout)
    }

    #[inline(always)]
    fn live_with<F: Flash>(&self, flash: &F, layout: &Layout, puts: &[Put]) -> usize {
        live_with(flash, layout, puts)
    }

    #[inline(always)]
    fn next_live<F: Flash>(
        &self,
        flash: &F,
        layout: &Layout,
        after: Option<Address>,
    ) -> Option<(Address, u32)> {
        next_live(flash, layout, after)
    }

    #[inline(always)]
    fn next_batch<F: Flash>(
        &self,
        flash: &F,
        layout: &Layout,
        after: Option<Address>,
    ) -> LiveBatch {
        let mut batch = LiveBatch::new();
        next_batch(flash, layout, after, &mut batch);
        batch
    }

    #[inline(always)]
    fn make_ready<F: Flash>(
        &mut self,
        _flash: &F,
        _layout: &Layout,
        _put: Put,
    ) -> Result<(), NoMemory> {
        Ok(())
    }

    #[inline(always)]
    fn make_room<F: Flash>(
        &mut self,
        _flash: &F,
        _layout: &Layout,
        _puts: &[Put],
    ) -> Result<(), NoMemory> {
        Ok(())
    }

    #[inline(always)]
    fn read_anew<F: Flash>(&mut self, _flash: &F, _layout: &Layout) {}

    #[inline(always)]
    fn find_nothing(&mut self) {}

    #[inline(always)]
    fn append<F: Flash>(
        &mut self,
        flash: &mut F,
        layout: &mut Layout,
        change: Change,
    ) -> Result<(), Cut> {
        append_change(flash, layout, change)
    }

    #[inline(always)]
    fn transfer<F: Flash>(
        &mut self,
        flash: &mut F,
        layout: &mut Layout,
        puts: &[Put],
        forgets: bool,
    ) -> Result<(), Cut> {
        move_unindexed(flash, layout, puts, forgets)
    }
}
