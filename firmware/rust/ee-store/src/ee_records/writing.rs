// Made by strip from crates/ee_records/src/writing.rt. Change that file.
// SPDX-License-Identifier: MIT OR Apache-2.0
//! Writing a record: the words that change, and then its head.

use crate::ee_records::fault::RecordFault;
use crate::ee_records::record::Record;
use crate::ee_records::words::{has_value, record_word, word_turn, words_with};
use crate::ee_codec::Address;
use crate::ee_core::{Put, Variables, WriteFault};

/// Each of the sixteen turns.
const ALL_TURNS: u32 = 65535;

impl Record {
    /// Writes the record: after this call, and after a cut in it too, it has these bytes or is as
    /// it was. Each word that changes takes a slot, the check another, and the head a third; in a
    /// record of more than 60 bytes the words that share a turn with one of them may take one too.
    /// Where nothing changes no slot is taken, and it answers `false`.
    ///
    /// # Errors
    ///
    /// The first `RecordFault` that applies.
    pub fn write<V: Variables>(&self, store: &mut V, bytes: &[u8]) -> Result<bool, RecordFault> {
        let Some(put) = self.prepare(store, bytes)? else {
            return Ok(false);
        };
        put_value(store, put.address, put.value)?;
        Ok(true)
    }

    /// Makes all of a write but its last single write, and gives that: a value that `write` or
    /// `write_all` is to write before the record is prepared or written again. So several records
    /// are written at once or none is, beside other variables, by one list. `None` where the record
    /// has these bytes already. The record is as it was until that value is written.
    ///
    /// # Errors
    ///
    /// The first `RecordFault` that applies.
    pub fn prepare<V: Variables>(
        &self,
        store: &mut V,
        bytes: &[u8],
    ) -> Result<Option<Put>, RecordFault> {
        let Ok(old) = store.read(self.base()) else {
            return Err(RecordFault::Off);
        };
        if bytes.len() > self.capacity() {
            return Err(RecordFault::TooLong);
        }
        // Where there is no record, each word goes to its first address.
        let Some(head) = old else {
            return self.turn_words(store, bytes, ALL_TURNS, ALL_TURNS);
        };
        let turns = head / 65536;
        let turned = self.changed_turns(store, bytes, turns);
        if turned == 0 && head % 65536 == bytes.len() as u32 {
            return Ok(None);
        }
        self.turn_words(store, bytes, turns, turned)
    }

    /// The turns of the words that these bytes change.
    fn changed_turns<V: Variables>(&self, store: &V, bytes: &[u8], turns: u32) -> u32 {
        let mut turned = 0;
        for word in 0..words_with(bytes.len()) {
            let address = self.place(word, word_turn(turns, word));
            if !has_value(store, address, record_word(bytes, word)) {
                turned |= 1 << (word % 16);
            }
        }
        turned
    }

    /// Puts the words that turn at their other addresses, and gives the head that turns them.
    fn turn_words<V: Variables>(
        &self,
        store: &mut V,
        bytes: &[u8],
        turns: u32,
        turned: u32,
    ) -> Result<Option<Put>, RecordFault> {
        self.put_words(store, bytes, turns, turned)?;
        Ok(Some(Put {
            address: self.base(),
            value: (turns ^ turned) * 65536 + bytes.len() as u32,
        }))
    }

    /// Puts the words that turn at their other addresses, where they don't stand there.
    fn put_words<V: Variables>(
        &self,
        store: &mut V,
        bytes: &[u8],
        turns: u32,
        turned: u32,
    ) -> Result<(), RecordFault> {
        for word in 0..words_with(bytes.len()) {
            if word_turn(turned, word) == 1 {
                let address = self.place(word, 1 - word_turn(turns, word));
                put_value(store, address, record_word(bytes, word))?;
            }
        }
        Ok(())
    }
}

/// Gives an address a value, if it doesn't have it.
fn put_value<V: Variables>(store: &mut V, address: Address, value: u32) -> Result<(), RecordFault> {
    if has_value(store, address, value) {
        return Ok(());
    }
    match store.write(address, value) {
        Ok(_) => Ok(()),
        Err(WriteFault::Off) => Err(RecordFault::Off),
        Err(WriteFault::Full) => Err(RecordFault::Full),
        Err(WriteFault::Spent) => Err(RecordFault::Spent),
        Err(WriteFault::Memory) => Err(RecordFault::Memory),
        Err(WriteFault::Cut) => Err(RecordFault::Cut),
    }
}
