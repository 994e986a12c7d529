// Made by strip from crates/ee_index/src/lent_list.rt. Change that file.
// SPDX-License-Identifier: MIT OR Apache-2.0
//! A list in memory that the caller lends, which has room for so many addresses.

use crate::ee_index::entries::{Entry, renumber, search};
use crate::ee_index::listing::Listing;
use crate::ee_codec::Address;
use crate::ee_core::{NoMemory, Put};

/// Addresses with their slots, counted from 0, by rising address. They stand first in the room.
pub(crate) struct LentList<'a> {
    room: &'a mut [Entry],
    count: usize,
}

impl<'a> LentList<'a> {
    /// With no address.
    pub(crate) fn new(room: &'a mut [Entry]) -> LentList<'a> {
        LentList { room, count: 0 }
    }

    /// How many addresses there is room for.
    pub(crate) fn capacity(&self) -> usize {
        self.room.len()
    }

    /// Takes all addresses from it.
    pub(crate) fn clear(&mut self) {
        self.count = 0;
    }
}

impl<'a> Listing for LentList<'a> {
    fn entries(&self) -> &[Entry] {
        &self.room[..self.count]
    }

    fn find(&self, address: Address) -> Result<usize, usize> {
        search(self.entries(), address)
    }

    fn insert(&mut self, address: Address, number: usize) -> Result<(), NoMemory> {
        let entry = (address, number as u16);
        match self.find(address) {
            Ok(place) => {
                self.room[place] = entry;
                Ok(())
            }
            Err(place) => {
                if self.count == self.room.len() {
                    return Err(NoMemory);
                }
                let room = &mut *self.room;
                put_in(room, self.count, place, entry);
                self.count += 1;
                Ok(())
            }
        }
    }

    fn remove(&mut self, address: Address) {
        if let Ok(place) = self.find(address) {
            let room = &mut *self.room;
            take_out(room, self.count, place);
            self.count -= 1;
        }
    }

    fn renumber(&mut self, puts: &[Put]) {
        renumber(&mut self.room[..self.count], puts);
    }
}

/// Puts an entry in at a place among so many, behind which there is room.
fn put_in(room: &mut [Entry], count: usize, place: usize, entry: Entry) {
    room.copy_within(place..count, place + 1);
    room[place] = entry;
}

/// Takes the entry at a place out of so many.
fn take_out(room: &mut [Entry], count: usize, place: usize) {
    room.copy_within(place + 1..count, place);
}
