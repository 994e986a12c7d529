// Made by strip from crates/ee_core/src/variables.rt. Change that file.
// SPDX-License-Identifier: MIT OR Apache-2.0
//! What a store is to its users: its calls, what they answer, and why they refuse.

use crate::ee_core::change::Put;
use crate::ee_codec::Address;
use crate::ee_pages::LiveBatch;

/// The device is off.
#[derive(Clone, Copy, Debug, PartialEq, Eq)]
pub struct Off;

/// How a change was stored.
#[derive(Clone, Copy, Debug, PartialEq, Eq)]
pub enum Written {
    /// In a free slot.
    Appended,
    /// No slot was free: in the other set, to which all live addresses were moved.
    Moved,
}

/// Why nothing is written, the first cause that applies. All but `Cut` leave the device as it was.
#[derive(Clone, Copy, Debug, PartialEq, Eq)]
pub enum WriteFault {
    /// The device is off.
    Off,
    /// The address has no value, and as many addresses have one as there are slots.
    Full,
    /// Every slot is used, and the generation is the greatest, 4294967294.
    Spent,
    /// Memory ran out, in a store that keeps an index, for an address that has no value.
    Memory,
    /// Power failed in this call. The device is off; the change is held or not, and nothing else
    /// changed for any reader.
    Cut,
}

/// Why no value of a list is written, the first cause that applies. All but `Cut` leave
/// the device as it was.
#[derive(Clone, Copy, Debug, PartialEq, Eq)]
pub enum WriteAllFault {
    /// The device is off.
    Off,
    /// An address is listed twice: the first entry, counted from 0, whose address an earlier one
    /// has.
    Twice(usize),
    /// More addresses would have a value than there are slots.
    Full,
    /// The generation is the greatest, 4294967294; of a list of one, and every slot is used.
    Spent,
    /// Memory ran out, in a store that keeps an index, for an address that has no value.
    Memory,
    /// Power failed in this call. The device is off; all values of the list are held or none, and
    /// nothing else changed for any reader.
    Cut,
}

/// Why nothing is forgotten, the first cause that applies. All but `Cut` leave the device as it
/// was.
#[derive(Clone, Copy, Debug, PartialEq, Eq)]
pub enum ForgetFault {
    /// The device is off.
    Off,
    /// The address has no value.
    Absent,
    /// Every slot is used, and the generation is the greatest, 4294967294.
    Spent,
    /// Power failed in this call. The device is off; the address has its value still or has none,
    /// and nothing else changed for any reader.
    Cut,
}

/// Why nothing is cleared, the first cause that applies. All but `Cut` leave the device as it was.
#[derive(Clone, Copy, Debug, PartialEq, Eq)]
pub enum ClearFault {
    /// The device is off.
    Off,
    /// A slot is used, and the generation is the greatest, 4294967294.
    Spent,
    /// Power failed in this call. The device is off; each address has its value still, or none has
    /// one.
    Cut,
}

/// Variables of 32 bits, each with an address of 1 to 65534, kept in a flash device.
///
/// Source: variables by virtual address, of which the last element written counts, and a clean-up
/// whose moment the application chooses, AN4894; the rest is ours.
pub trait Variables {
    /// The slots of a set, 1 to 32512: as many changes as it takes, and as many
    /// addresses can have a value.
    fn slots(&self) -> usize;

    /// Whether the device is on.
    fn is_on(&self) -> bool;

    /// The value of an address, `None` if it has none.
    ///
    /// # Errors
    ///
    /// `Off`: the device is off.
    fn read(&self, address: Address) -> Result<Option<u32>, Off>;

    /// Writes a value, also one that the address has already.
    ///
    /// # Errors
    ///
    /// The first `WriteFault` that applies.
    fn write(&mut self, address: Address, value: u32) -> Result<Written, WriteFault>;

    /// Writes these values at once: after this call, and after a cut in it too, the map has all of
    /// them or is as it was. A list of one is written as by `write`; for more the live set moves to
    /// the other set, whether a slot is free or not.
    ///
    /// # Errors
    ///
    /// The first `WriteAllFault` that applies.
    fn write_all(&mut self, changes: &[Put]) -> Result<Written, WriteAllFault>;

    /// Takes the value of an address away.
    ///
    /// # Errors
    ///
    /// The first `ForgetFault` that applies.
    fn forget(&mut self, address: Address) -> Result<Written, ForgetFault>;

    /// Takes the values of all addresses away at once: after this call, and after a cut in it too,
    /// none has a value or all have theirs. `false` if no slot is used: then it takes no step. Else
    /// the other set becomes the live one with nothing in it. The words of the old values stay in
    /// the flash until their set is erased.
    ///
    /// # Errors
    ///
    /// The first `ClearFault` that applies.
    fn clear(&mut self) -> Result<bool, ClearFault>;

    /// Erases the lowest page of the other set that is not blank. `false` if there is none.
    ///
    /// # Errors
    ///
    /// `WriteFault::Off` or `WriteFault::Cut`, and no other.
    fn clean_step(&mut self) -> Result<bool, WriteFault>;

    /// How many pages of the other set are not blank, 0 to 64.
    fn pending(&self) -> usize;

    /// How many slots are used, torn ones too: 0 to the slots.
    fn fill(&self) -> usize;

    /// The generation of the live set, 1 to 4294967294: one more with each transfer.
    fn generation(&self) -> u32;

    /// How many addresses have a value, 0 to the slots.
    fn live_count(&self) -> usize;

    /// The next address above `after`, or of all if `after` is `None`, that has a value, with the
    /// value. `None` if there is none.
    fn next_live(&self, after: Option<Address>) -> Option<(Address, u32)>;

    /// The next addresses above `after`, or the first of all if `after` is `None`, that have a
    /// value, with their values: as many as one look through the slots gives.
    fn next_batch(&self, after: Option<Address>) -> LiveBatch;
}
