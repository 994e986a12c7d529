// Made by strip from crates/ee_records/src/lib.rt. Change that file.
// SPDX-License-Identifier: MIT OR Apache-2.0
//! Records: bytes of any length in a store of 32-bit variables, each written whole or not at all,
//! by single writes, and read with a check.
//!
//! A record has a base address and room for so many words of four bytes. The variable at the base
//! is its head: the length in bytes in the low 16 bits, and 16 turns in the high ones. Behind it
//! each word has two addresses, and turn `w % 16` says which of the two counts for word `w`. Word 0
//! is the check, CRC-32 over length and bytes. A write puts the changed words at their other
//! addresses, each by a write of its own, and then the head, which turns them all at once. A read
//! finds as many addresses as it is told by one look through the slots.
//!
//! # What a contract sees
//!
//! `specs/Record.antt` says what a map holds as a record, `specs/Check.antt` what its check is,
//! `specs/Calls.antt` what each call answers and leaves, and how many slots a write takes.
//!
//! # What is proved
//!
//! A read gives exactly the bytes of the last write that was answered; a cut leaves the old record
//! or the new one, and nothing else changed; each refusal has its cause. `laws`: where one word of
//! a record but its head went bad, that is told or the same bytes are read, never others
//! (`one_word_is_told`).
//!
//! # What is only tested
//!
//! Two bad words, and a bad head.
//!
//! # Read first
//!
//! `specs/Record.antt`, `specs/Calls.antt`.

mod check;
mod fault;
mod forgetting;
mod reading;
mod record;
mod words;
mod writing;

pub use fault::{ReadFault, RecordFault, TrimFault};
pub use reading::Finding;
pub use record::Record;
