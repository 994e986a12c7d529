// Made by strip from crates/ee_core/src/store.rt. Change that file.
// SPDX-License-Identifier: MIT OR Apache-2.0
//! The store: it knows where the live set is and how far it is used, and finds values by a look-up.

use crate::ee_core::change::Put;
use crate::ee_core::changing::empty;
use crate::ee_core::cleaning::count_pending;
use crate::ee_core::known::Known;
use crate::ee_core::lookup::{Lookup, Slots};
use crate::ee_core::puts::first_twice;
use crate::ee_core::variables::{
    ClearFault, ForgetFault, Off, Variables, WriteAllFault, WriteFault, Written,
};
use crate::ee_codec::Address;
use crate::ee_flash::{Cut, Flash};
use crate::ee_pages::{Layout, LiveBatch, Span, Wanted, load, read_span, torn_slots};

/// The greatest generation of a set.
pub const GREATEST_GENERATION: u32 = 4_294_967_294;

/// Variables in a flash device. It keeps in memory where the live set is and how far it is used,
/// and finds values by a look-up: `Slots` keeps nothing, and reads all else from the flash.
///
/// Source: two sets, of which one takes the writes, AN4894; the rest is ours.
pub struct Store<F: Flash, L: Lookup = Slots> {
    pub(crate) flash: F,
    pub(crate) known: Known<L>,
}

impl<F: Flash> Store<F> {
    /// A store of this device, of which this is the layout. It looks through the slots.
    pub(crate) fn of(flash: F, layout: Layout) -> Store<F> {
        let lookup = Slots;
        Store {
            flash,
            known: Known { layout, lookup },
        }
    }

    /// This store, which finds values by this look-up from here on. The look-up is read anew first,
    /// and no step is taken.
    pub fn with_lookup<L: Lookup>(self, lookup: L) -> Store<F, L> {
        let Store { flash, known } = self;
        let layout = known.layout;
        let mut lookup = lookup;
        lookup.read_anew(&flash, &layout);
        Store {
            flash,
            known: Known { layout, lookup },
        }
    }
}

impl<F: Flash, L: Lookup> Store<F, L> {
    /// The device, to be looked at.
    pub fn flash(&self) -> &F {
        &self.flash
    }

    /// The look-up, to be looked at.
    pub fn lookup(&self) -> &L {
        &self.known.lookup
    }

    /// The device, as it is.
    pub fn into_flash(self) -> F {
        self.flash
    }

    /// How many slots of the live set are torn, 0 to its fill: words in whose step power was cut.
    /// It reads each slot once.
    pub fn torn_slots(&self) -> usize {
        torn_slots(&self.flash, &self.known.layout)
    }

    /// Gives each entry of a list the value of its address, as `read` would, by one look through
    /// the slots. An address may stand in the list more than once.
    ///
    /// # Errors
    ///
    /// The store is off. The list is as it was.
    pub fn load(&self, entries: &mut [Wanted]) -> Result<(), Off> {
        if !self.flash.is_on() {
            return Err(Off);
        }
        load(&self.flash, &self.known.layout, entries);
        Ok(())
    }

    /// The values of so many addresses from this one on, or of fewer, by one look through the
    /// slots. Of one address alone it is by the store's look-up.
    ///
    /// # Errors
    ///
    /// The store is off.
    pub fn read_span(&self, first: Address, count: usize) -> Result<Span, Off> {
        if count == 1 {
            let value = self.known.read(&self.flash, first)?;
            return Ok(Span::of_one(first, value));
        }
        if !self.flash.is_on() {
            return Err(Off);
        }
        Ok(read_span(&self.flash, &self.known.layout, first, count))
    }

    /// Writes the one value of a list.
    fn write_one(&mut self, put: Put) -> Result<Written, WriteAllFault> {
        match self.write(put.address, put.value) {
            Ok(written) => Ok(written),
            Err(WriteFault::Off) => Err(WriteAllFault::Off),
            Err(WriteFault::Full) => Err(WriteAllFault::Full),
            Err(WriteFault::Spent) => Err(WriteAllFault::Spent),
            Err(WriteFault::Cut) => Err(WriteAllFault::Cut),
            Err(WriteFault::Memory) => Err(WriteAllFault::Memory),
        }
    }

    /// Writes two values or more, with a transfer.
    fn write_several(&mut self, puts: &[Put]) -> Result<Written, WriteAllFault> {
        if let Some(place) = first_twice(puts) {
            return Err(WriteAllFault::Twice(place));
        }
        if self.is_full_for_all(puts) {
            return Err(WriteAllFault::Full);
        }
        if self.is_last() {
            return Err(WriteAllFault::Spent);
        }
        let Ok(()) = self
            .known
            .lookup
            .make_room(&self.flash, &self.known.layout, puts)
        else {
            return Err(WriteAllFault::Memory);
        };
        match self
            .known
            .lookup
            .transfer(&mut self.flash, &mut self.known.layout, puts, false)
        {
            Ok(()) => Ok(Written::Moved),
            Err(Cut) => Err(WriteAllFault::Cut),
        }
    }

    /// Whether more addresses would have a value than there are slots, with these values, each of
    /// which is of an address of its own.
    fn is_full_for_all(&self, puts: &[Put]) -> bool {
        let slots = self.flash.shape().slots();
        puts.len() > slots
            || self
                .known
                .lookup
                .live_with(&self.flash, &self.known.layout, puts)
                > slots
    }

    /// Whether no generation is left for a transfer.
    fn is_last(&self) -> bool {
        self.known.layout.generation == GREATEST_GENERATION
    }
}

impl<F: Flash, L: Lookup> Variables for Store<F, L> {
    fn slots(&self) -> usize {
        self.flash.shape().slots()
    }

    fn is_on(&self) -> bool {
        self.flash.is_on()
    }

    fn read(&self, address: Address) -> Result<Option<u32>, Off> {
        self.known.read(&self.flash, address)
    }

    #[inline(always)]
    fn write(&mut self, address: Address, value: u32) -> Result<Written, WriteFault> {
        self.known.write(&mut self.flash, address, value)
    }

    fn write_all(&mut self, changes: &[Put]) -> Result<Written, WriteAllFault> {
        if !self.flash.is_on() {
            return Err(WriteAllFault::Off);
        }
        if changes.is_empty() {
            return Ok(Written::Appended);
        }
        if changes.len() == 1 {
            return self.write_one(changes[0]);
        }
        self.write_several(changes)
    }

    fn forget(&mut self, address: Address) -> Result<Written, ForgetFault> {
        self.known.forget(&mut self.flash, address)
    }

    fn clear(&mut self) -> Result<bool, ClearFault> {
        if !self.flash.is_on() {
            return Err(ClearFault::Off);
        }
        if self.known.layout.fill == 0 {
            return Ok(false);
        }
        if self.is_last() {
            return Err(ClearFault::Spent);
        }
        match empty(&mut self.flash, &mut self.known.layout) {
            Ok(()) => {
                self.known.lookup.find_nothing();
                Ok(true)
            }
            Err(Cut) => Err(ClearFault::Cut),
        }
    }

    fn clean_step(&mut self) -> Result<bool, WriteFault> {
        self.known.clean_step(&mut self.flash)
    }

    fn pending(&self) -> usize {
        count_pending(&self.flash, self.known.layout.side.other())
    }

    fn fill(&self) -> usize {
        self.known.layout.fill
    }

    fn generation(&self) -> u32 {
        self.known.layout.generation
    }

    fn live_count(&self) -> usize {
        self.known
            .lookup
            .live_count(&self.flash, &self.known.layout)
    }

    fn next_live(&self, after: Option<Address>) -> Option<(Address, u32)> {
        self.known
            .lookup
            .next_live(&self.flash, &self.known.layout, after)
    }

    fn next_batch(&self, after: Option<Address>) -> LiveBatch {
        self.known
            .lookup
            .next_batch(&self.flash, &self.known.layout, after)
    }
}
