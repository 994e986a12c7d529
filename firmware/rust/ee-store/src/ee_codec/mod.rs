// Made by strip from crates/ee_codec/src/lib.rt. Change that file.
// SPDX-License-Identifier: MIT OR Apache-2.0
//! The words of the store: what a number of 64 bits says as a slot, as a receive word and as a
//! mark.
//!
//! A slot holds an element (an address and its value) or a forgetting. A header word holds a
//! receive word (the generation of a set) or a mark. The place of a word alone tells which of the
//! two it is.
//!
//! # What a contract sees
//!
//! `Address`, and the spellings of `specs/Words.antt` as numbers.
//!
//! # What is proved
//!
//! `read_slot`, `read_receive` and `read_mark` are exactly the inverse of the spellings, and
//! nothing else reads (`says`, `found`, `only`, `exact`). `Address::new` takes exactly 1 to 65534.
//!
//! # What is only tested
//!
//! The spellings digit for digit, by the worked examples.
//!
//! # Read first
//!
//! `specs/Words.antt`, then `specs/Reading.antt`.

mod address;
mod header;
mod slot;

pub use address::Address;
pub use header::{MARK, MarkRead, read_mark, read_receive, receive_word};
pub use slot::{Slot, element_word, ends_in, forget_word, read_slot};
