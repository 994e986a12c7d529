// Made by strip from crates/ee_nor/src/coded.rt. Change that file.
// SPDX-License-Identifier: MIT OR Apache-2.0
//! Words with a check, for a flash whose reads correct a bit.
//!
//! A flash with error correction corrects one wrong bit and tells two. Of a word whose program was
//! cut any number of bits may be wrong, and then it is *corrected* into a number that nobody wrote.
//! So here a word has a check of 15 bits between its value and its address, by which of any two
//! coded words each has two ones or more that the other lacks. Cells go one way: from one to zero
//! while a word is programmed, from zero to one while a page is erased. So what a cut leaves has
//! every one of the word asked for, and with one bit turned, whichever it is and whatever the error
//! correction did, it is that word or no coded word.
//!
//! `coded_number` makes a word, `word_of_reading` reads one, by the code of `specs/Coded/Code.antt`.
//! `Coded` is a device of words (`ee_flash`) on such a flash, one number a word. The check is the
//! bits 31 to 17, so a run gives the numbers as they read, in which a look finds an address, and
//! `number` decodes the one that is found. `EccNor` is the flash as a contract
//! (`specs/Coded/EccNor.antt`): cells, and beside each number what it reads as.
//! `specs/Coded/Coded.antt` says which word a reading is.
//!
//! The mark has the shape of the device, and that of another is torn. So a flash that was written
//! in another shape has no committed set, and `Coded::of` names that shape where the first page of
//! a set does, and refuses a store of plain words. Numbers of something else read as torn: a store
//! is first made only where no more is written than a first start leaves (`may_be_new`).
//!
//! Not here: a test whether cells hold what something else wrote, since a reading doesn't tell
//! (`of` and `known` ask for it, and `wipe` erases). The code doesn't hold where two bits are
//! corrected, where erases clear cells first, or where cells fade from one to zero by themselves.
//!
//! # What is proved
//!
//! `coded_number` gives the word by its definition, and none is near another
//! (`none_is_near_another`). `word_of_reading` is its inverse, and reads no number of another. What
//! a cut left of a program, read with one bit turned at most, is held as the number of that word or
//! as none; so it is after a cut erase on top, and an erased word is held as none (`told`, a record
//! of these four). On a device of one shape the mark of another is torn (`other_mark_is_torn` in
//! `laws`), and a slot's value, kind and address stand in its word as they are
//! (`slots_stand_in_clear`), by which readings show what `Flash` asks of them.
//!
//! `Coded` keeps the contract of `ee_flash::Flash`, to the letter, for numbers that a store writes.
//! A word is held only where it is the coded word of its number. Where power may be cut `Coded`
//! needs that each number is erased or one that a coded word was programmed into, which every step
//! and every cut keeps (`safe`). That a cut erase completes no number which an earlier cut left
//! torn is no theorem but a clause of `EccNor::erase`.

mod code;
mod coded;
mod ecc_nor;
mod runs;
mod shapes;
mod wiping;
mod words;

pub use coded::Coded;
pub use ecc_nor::EccNor;
pub use shapes::{OtherShape, shape_of_mark};
pub use words::{coded_number, word_of_reading};
