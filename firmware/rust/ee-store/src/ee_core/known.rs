// Made by strip from crates/ee_core/src/known.rt. Change that file.
// SPDX-License-Identifier: MIT OR Apache-2.0
//! What a store keeps in memory beside its device, and the calls that stand on it.

use crate::ee_core::change::{Change, Put};
use crate::ee_core::cleaning::clean;
use crate::ee_core::lookup::Lookup;
use crate::ee_core::store::GREATEST_GENERATION;
use crate::ee_core::variables::{ForgetFault, Off, WriteFault, Written};
use crate::ee_codec::Address;
use crate::ee_flash::{Cut, Flash};
use crate::ee_pages::Layout;

/// What a store keeps in memory beside its device.
pub struct Known<L: Lookup> {
    /// Where the live set is, and how far it is used.
    pub layout: Layout,
    /// What finds values.
    pub lookup: L,
}

impl<L: Lookup> Known<L> {
    /// `Variables::read` on the device of which this is known.
    pub fn read<F: Flash>(&self, flash: &F, address: Address) -> Result<Option<u32>, Off> {
        if !flash.is_on() {
            return Err(Off);
        }
        Ok(self.lookup.value_of(flash, &self.layout, address))
    }

    /// `Variables::write` on the device of which this is known.
    #[inline(always)]
    pub fn write<F: Flash>(
        &mut self,
        flash: &mut F,
        address: Address,
        value: u32,
    ) -> Result<Written, WriteFault> {
        if !flash.is_on() {
            return Err(WriteFault::Off);
        }
        if self.layout.fill < flash.shape().slots() {
            return self.append_value(flash, address, value);
        }
        self.move_value(flash, address, value)
    }

    /// `Variables::forget` on the device of which this is known.
    #[inline(always)]
    pub fn forget<F: Flash>(
        &mut self,
        flash: &mut F,
        address: Address,
    ) -> Result<Written, ForgetFault> {
        if !flash.is_on() {
            return Err(ForgetFault::Off);
        }
        let Some(value) = self.lookup.value_of(flash, &self.layout, address) else {
            return Err(ForgetFault::Absent);
        };
        if self.layout.fill < flash.shape().slots() {
            let change = Change::Forget { address, value };
            return match self.lookup.append(flash, &mut self.layout, change) {
                Ok(()) => Ok(Written::Appended),
                Err(Cut) => Err(ForgetFault::Cut),
            };
        }
        if self.layout.generation == GREATEST_GENERATION {
            return Err(ForgetFault::Spent);
        }
        let put = Put { address, value };
        match self.lookup.transfer(flash, &mut self.layout, &[put], true) {
            Ok(()) => Ok(Written::Moved),
            Err(Cut) => Err(ForgetFault::Cut),
        }
    }

    /// `Variables::clean_step` on the device of which this is known.
    pub fn clean_step<F: Flash>(&self, flash: &mut F) -> Result<bool, WriteFault> {
        if !flash.is_on() {
            return Err(WriteFault::Off);
        }
        match clean(flash, &self.layout) {
            Ok(erased) => Ok(erased),
            Err(Cut) => Err(WriteFault::Cut),
        }
    }

    /// Writes a value into the first free slot.
    #[inline(always)]
    fn append_value<F: Flash>(
        &mut self,
        flash: &mut F,
        address: Address,
        value: u32,
    ) -> Result<Written, WriteFault> {
        let put = Put { address, value };
        let Ok(()) = self.lookup.make_ready(flash, &self.layout, put) else {
            return Err(WriteFault::Memory);
        };
        let change = Change::Put { address, value };
        match self.lookup.append(flash, &mut self.layout, change) {
            Ok(()) => Ok(Written::Appended),
            Err(Cut) => Err(WriteFault::Cut),
        }
    }

    /// Writes a value with the transfer that it needs, since every slot is used.
    fn move_value<F: Flash>(
        &mut self,
        flash: &mut F,
        address: Address,
        value: u32,
    ) -> Result<Written, WriteFault> {
        if self.has_no_place(flash, address) {
            return Err(WriteFault::Full);
        }
        if self.layout.generation == GREATEST_GENERATION {
            return Err(WriteFault::Spent);
        }
        let puts = [Put { address, value }];
        let Ok(()) = self.lookup.make_room(flash, &self.layout, &puts) else {
            return Err(WriteFault::Memory);
        };
        match self.lookup.transfer(flash, &mut self.layout, &puts, false) {
            Ok(()) => Ok(Written::Moved),
            Err(Cut) => Err(WriteFault::Cut),
        }
    }

    /// Whether the address has no value and there is no slot for one more.
    fn has_no_place<F: Flash>(&self, flash: &F, address: Address) -> bool {
        let slots = flash.shape().slots();
        match self.lookup.value_of(flash, &self.layout, address) {
            Some(_) => false,
            None => self.lookup.live_count(flash, &self.layout) == slots,
        }
    }
}
