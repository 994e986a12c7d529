// Made by strip from crates/ee_nor/src/lib.rt. Change that file.
// SPDX-License-Identifier: MIT OR Apache-2.0
//! Words over a flash of plain numbers: two numbers each, a value beside its complement (`Pairs`),
//! for flash without error correction; or one number each with a check of 15 bits (`coded`), for
//! flash whose reads correct a bit.
//!
//! Cells go one way: from one to zero while a number is programmed, back while a page is erased. So
//! what a cut leaves of a number has every bit of the one asked for, hence is no less, and so it is
//! with its complement: the two sum to `u64::MAX` only where both are whole. Pairs take twice the
//! flash.
//!
//! Some flashes clear all cells of a page before they set them, so that a cut erase may leave any
//! bits. Of these it is a premise that no two numbers of a word come out as each other's complement
//! (`clears_first`). The part has to be tried for it: a word that a cut program tore near its end
//! lacks few bits.
//!
//! # What a contract sees
//!
//! `Nor` is the flash of numbers as a contract, all that a driver has to meet (`specs/Nor.antt`).
//! `specs/Pairs.antt` says which word two numbers are. Coded words have `EccNor`, with what each
//! number reads as (`specs/Coded/EccNor.antt`).
//!
//! # What is proved
//!
//! `Pairs` keeps the contract of `Flash`, to the letter: a step of words is one or two steps of
//! numbers, cut once at most. Where the flash doesn't clear first and power may be cut, no word's
//! two numbers may sum to less than `u64::MAX`; each step and each cut keeps that, `of` names the
//! first word that breaks it (`fault`), and `wipe` erases each page that isn't blank (`wiped`,
//! `cut`). `laws`: a word that was cut on its way to a value is that value or none
//! (`torn_is_told`); a cut erase makes no number (`erase_makes_no_number`); parts of 8, 16 or 32
//! bits, programmed from either end, leave a number as `Nor` allows (`parts_are_a_program`). Of
//! coded words the head of `coded` tells.
//!
//! # What is only tested
//!
//! The drivers that meet `Nor` and `EccNor`.
//!
//! # Read first
//!
//! `specs/Nor.antt`.

pub mod coded;
mod low_pair;
mod nor;
mod pairs;
mod runs;
mod wiping;

pub use low_pair::{LowPair, is_low};
pub use nor::Nor;
pub use pairs::{Pairs, complement_of, word_of};
