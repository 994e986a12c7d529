// Made by strip from crates/ee_records/src/reading.rt. Change that file.
// SPDX-License-Identifier: MIT OR Apache-2.0
//! Reading a record.

use crate::ee_records::check::{check_of, words_for};
use crate::ee_records::fault::ReadFault;
use crate::ee_records::record::Record;
use crate::ee_records::words::{put_bytes, word_turn, words_with};
use crate::ee_codec::Address;
use crate::ee_core::{Lookup, Store};
use crate::ee_flash::Flash;
use crate::ee_pages::{SPAN, Span};

/// How the values of a record are found.
#[derive(Clone, Copy)]
pub enum Finding {
    /// Each by the store's look-up, as is best where that is an index.
    Each,
    /// Those of `SPAN` addresses by one look through the slots.
    Together,
}

impl Finding {
    /// For how many addresses a value is looked for at once.
    fn at_once(self) -> usize {
        match self {
            Finding::Each => 1,
            Finding::Together => SPAN,
        }
    }
}

impl Record {
    /// Reads the record into the space that is lent, and gives its length, or `None` if there is
    /// none. At `None` and at a fault the space may hold anything.
    ///
    /// # Errors
    ///
    /// The first `ReadFault` that applies.
    pub fn read<F: Flash, L: Lookup>(
        &self,
        store: &Store<F, L>,
        finding: Finding,
        space: &mut [u8],
    ) -> Result<Option<usize>, ReadFault> {
        // No look goes on for addresses behind the record's.
        let count = finding.at_once().min(2 * words_with(self.capacity()) + 1);
        let Ok(mut near) = store.read_span(self.base(), count) else {
            return Err(ReadFault::Off);
        };
        let Some(head) = value_near(store, count, &mut near, self.base()) else {
            return Ok(None);
        };
        let length = (head % 65536) as usize;
        if length > self.capacity() {
            return Err(ReadFault::Hurt);
        }
        if length > space.len() {
            return Err(ReadFault::TooLong(length));
        }
        let turns = head / 65536;
        let first = self.place(0, word_turn(turns, 0));
        let Some(check) = value_near(store, count, &mut near, first) else {
            return Err(ReadFault::Hurt);
        };
        for word in 0..words_for(length) {
            let address = self.place(word + 1, word_turn(turns, word + 1));
            let Some(value) = value_near(store, count, &mut near, address) else {
                return Err(ReadFault::Hurt);
            };
            put_bytes(space, 4 * word, length, value);
        }
        if check != check_of(&space[..length]) {
            return Err(ReadFault::Hurt);
        }
        Ok(Some(length))
    }
}

/// The value of an address, by the last look where that found it, else by one for so many addresses
/// from this one on.
fn value_near<F: Flash, L: Lookup>(
    store: &Store<F, L>,
    at_once: usize,
    near: &mut Span,
    address: Address,
) -> Option<u32> {
    if let Some(value) = near.get(address) {
        return value;
    }
    // The store is on, and a look begins with its address.
    let Ok(span) = store.read_span(address, at_once) else {
        return None;
    };
    *near = span;
    near.get(address)?
}
