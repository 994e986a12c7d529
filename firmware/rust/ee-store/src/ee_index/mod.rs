// Made by strip from crates/ee_index/src/lib.rt. Change that file.
// SPDX-License-Identifier: MIT OR Apache-2.0
//! An index in memory of the slots in which the live addresses stand: a read of a store over it
//! looks at one word of the flash.
//!
//! `IndexedStore` is a store over `SlotIndex`, which grows; `LentIndex` is in memory that is lent,
//! for firmware. `costs.rt` and `looking.rt` tell `ee_replay` when an index pays.
//!
//! # What a contract sees
//!
//! `specs/Index.antt` says what an index is and how it changes.
//!
//! # What is proved
//!
//! Both keep the contract of `Lookup`, so that a store over them keeps that of `Variables`. Where
//! memory is refused, a change or an opening over `SlotIndex` leaves the device as it was, and a
//! write to addresses that have a value needs none (`Writes`, `WritesAll`, `failed`). `LentIndex`
//! takes no memory, so no call is refused for it (`takes_memory`): it is an index of the live set
//! or is given up (`fits`), and keeps the memory that it was lent (`as_many`, `same_room`).
//!
//! # What is only tested
//!
//! That a read takes one word or none, and when an index pays.
//!
//! # Read first
//!
//! `specs/Index.antt`.

mod entering;
mod entries;
mod index_changing;
mod lent_cursor;
mod lent_index;
mod lent_list;
mod listing;
mod reading;

pub use entries::Entry;
pub use lent_index::LentIndex;
