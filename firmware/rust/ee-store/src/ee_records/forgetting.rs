// Made by strip from crates/ee_records/src/forgetting.rt. Change that file.
// SPDX-License-Identifier: MIT OR Apache-2.0
//! Forgetting a record, and the words that it doesn't need.

use crate::ee_records::fault::TrimFault;
use crate::ee_records::record::Record;
use crate::ee_records::words::{word_turn, words_with};
use crate::ee_codec::Address;
use crate::ee_core::{ForgetFault, Variables};

impl Record {
    /// Takes the record away, by one slot. Its words stay, and take slots at moves: `trim` takes
    /// them away.
    ///
    /// # Errors
    ///
    /// The first `ForgetFault` that applies: `Absent` where there is no head.
    pub fn forget<V: Variables>(&self, store: &mut V) -> Result<(), ForgetFault> {
        match store.forget(self.base()) {
            Ok(_) => Ok(()),
            Err(fault) => Err(fault),
        }
    }

    /// Takes away the values at the record's addresses that it doesn't need, each by one slot: the
    /// other address of each word, and the words behind its end; all of them where there is no
    /// record. Each of them takes a slot at every move while it has a value.
    ///
    /// # Errors
    ///
    /// The first `TrimFault` that applies.
    pub fn trim<V: Variables>(&self, store: &mut V) -> Result<(), TrimFault> {
        let Ok(head) = store.read(self.base()) else {
            return Err(TrimFault::Off);
        };
        for at in 0..2 * words_with(self.capacity()) {
            let word = at / 2;
            let turn = (at % 2) as u32;
            if !is_needed(head, word, turn) {
                forget_value(store, self.place(word, turn))?;
            }
        }
        Ok(())
    }
}

/// Whether the record with this head needs the word at its address by this turn.
fn is_needed(head: Option<u32>, word: usize, turn: u32) -> bool {
    match head {
        Some(head) => {
            word < words_with((head % 65536) as usize) && word_turn(head / 65536, word) == turn
        }
        None => false,
    }
}

/// Takes the value of an address away, if it has one.
fn forget_value<V: Variables>(store: &mut V, address: Address) -> Result<(), TrimFault> {
    match store.forget(address) {
        Ok(_) => Ok(()),
        Err(ForgetFault::Absent) => Ok(()),
        Err(ForgetFault::Off) => Err(TrimFault::Off),
        Err(ForgetFault::Spent) => Err(TrimFault::Spent),
        Err(ForgetFault::Cut) => Err(TrimFault::Cut),
    }
}
