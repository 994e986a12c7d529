// Made by strip from crates/ee_pages/src/batch_items.rt. Change that file.
// SPDX-License-Identifier: MIT OR Apache-2.0
//! The room of a batch: up to `BATCH` addresses with their values, and while it is
//! filled some with none.

use crate::ee_pages::number::{address_in, gives_value, says_something};
use crate::ee_codec::{Address, element_word};

/// How many addresses a batch has room for.
pub const BATCH: usize = 28;

/// Addresses with their values, up to `BATCH`, in the value itself. While it is filled an address
/// may stand in it that has no value.
pub struct Batch {
    /// The words of elements and forgettings, in the order of their addresses.
    numbers: [u64; BATCH],
    len: usize,
}

impl Batch {
    /// An empty batch.
    pub fn new() -> Batch {
        // Any number of an address serves where there is none yet.
        Batch {
            numbers: [1; BATCH],
            len: 0,
        }
    }

    /// How many addresses are in it, 0 to `BATCH`.
    pub fn len(&self) -> usize {
        self.len
    }

    /// Whether there is none.
    pub fn is_empty(&self) -> bool {
        self.len == 0
    }

    /// Whether there is no room for one more.
    pub fn is_full(&self) -> bool {
        self.len == BATCH
    }

    /// The address at this place, counted from 0, with its value. `None` behind the last.
    #[inline(always)]
    pub fn get(&self, place: usize) -> Option<(Address, u32)> {
        if place >= self.len {
            return None;
        }
        let number = self.numbers[place];
        let address = Address::new(address_in(number))?;
        Some((address, (number >> 32) as u32))
    }

    /// Puts an address with its value behind the others.
    pub fn push(&mut self, address: Address, value: u32) {
        self.numbers[self.len] = element_word(address, value);
        self.len += 1;
    }

    /// Takes all addresses out.
    pub(crate) fn take_out(&mut self) {
        self.len = 0;
    }

    /// Notes what a number with an address says of it, over what was noted of it, if it is that of
    /// an element or a forgetting. Where there is no room the last address falls out. Says whether
    /// there may be another last address, or one more, than before. It stands in the loop over a
    /// run, so that no number of an address that has a place takes a call.
    #[inline(always)]
    pub(crate) fn note_any(&mut self, number: u64) -> bool {
        says_something(number) && self.put(number)
    }

    /// The same for an element or a forgetting.
    fn put(&mut self, number: u64) -> bool {
        let address = address_in(number);
        let through = self.place_through(address);
        if through > 0 && self.has(through - 1, address) {
            self.set(through - 1, number);
            return false;
        }
        if through < BATCH {
            self.insert(through, number);
        }
        true
    }

    /// How many of the addresses, which rise, are no greater than this one.
    fn place_through(&self, address: u16) -> usize {
        place_in(&self.numbers[..self.len], address)
    }

    /// Whether this address stands at this place.
    fn has(&self, place: usize, address: u16) -> bool {
        place < self.len && address_in(self.numbers[place]) == address
    }

    /// Notes of the address at this place what a number says of it.
    fn set(&mut self, place: usize, number: u64) {
        self.numbers[place] = number;
    }

    /// Puts a number in at this place. Where there is no room the last one falls out.
    fn insert(&mut self, place: usize, number: u64) {
        let end = one_more(self.len);
        put_in(&mut self.numbers, place, end, number);
        self.len = end;
    }

    /// The last address, where there is no room for one more.
    pub(crate) fn last_if_full(&self) -> Option<Address> {
        if self.len < BATCH {
            return None;
        }
        Address::new(address_in(self.numbers[BATCH - 1]))
    }

    /// The greatest address that has a place in it: the last one, where there is no room for one
    /// more.
    pub(crate) fn greatest(&self) -> u16 {
        if self.len < BATCH {
            return u16::MAX - 1;
        }
        address_in(self.numbers[BATCH - 1])
    }

    /// Keeps those that have a value.
    pub(crate) fn keep_living(&mut self) {
        self.len = keep(&mut self.numbers, self.len);
    }
}

/// One more, up to the room of a batch.
fn one_more(count: usize) -> usize {
    if count < BATCH { count + 1 } else { BATCH }
}

/// How many of these addresses, which rise, are no greater than this one. It looks from the last
/// down, since most addresses are above all.
fn place_in(rising: &[u64], address: u16) -> usize {
    let mut place = rising.len();
    while place > 0 && address < address_in(rising[place - 1]) {
        place -= 1;
    }
    place
}

/// Puts a number in at this place of a list, and moves what stands from there on to before `end`
/// one further; the last of these falls out.
fn put_in(list: &mut [u64], place: usize, end: usize, number: u64) {
    let mut carried = number;
    for at in place..end {
        let next = list[at];
        list[at] = carried;
        carried = next;
    }
}

/// Moves those of the first `count` that give a value to the front, and says how many there are.
fn keep(numbers: &mut [u64], count: usize) -> usize {
    let mut kept = 0;
    for place in 0..count {
        let number = numbers[place];
        if gives_value(number) {
            numbers[kept] = number;
            kept += 1;
        }
    }
    kept
}
