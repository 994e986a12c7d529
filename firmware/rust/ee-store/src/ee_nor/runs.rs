// Made by strip from crates/ee_nor/src/runs.rt. Change that file.
// SPDX-License-Identifier: MIT OR Apache-2.0
//! The numbers of words one behind another, each of two numbers of the flash.

use crate::ee_nor::nor::Nor;

/// Puts the numbers of as many words as there is room for into the room, from a place of a page on:
/// those that the flash has in memory are not read one by one.
pub(crate) fn fill_run<N: Nor>(nor: &N, page: usize, at: usize, room: &mut [u64]) {
    match nor.window(page, 2 * at, 2 * room.len()) {
        Some(numbers) => fill_from_window(numbers, room),
        None => fill_by_reading(nor, page, at, room),
    }
}

/// The same of numbers in memory, two of each word.
fn fill_from_window(numbers: &[u64], room: &mut [u64]) {
    for word in 0..room.len() {
        room[word] = number_of_pair(numbers[2 * word], numbers[2 * word + 1]);
    }
}

/// The same of numbers that are read.
fn fill_by_reading<N: Nor>(nor: &N, page: usize, at: usize, room: &mut [u64]) {
    for (word, number) in room.iter_mut().enumerate() {
        let first = 2 * (at + word);
        *number = number_of_pair(nor.read(page, first), nor.read(page, first + 1));
    }
}

/// The number of the word that two numbers are: `u64::MAX` of an erased word, 0 of a torn one. It
/// looks at halves of 32 bits, as `is_whole` does, and first whether the word is held, as most are.
fn number_of_pair(number: u64, check: u64) -> u64 {
    let (low, high) = halves(number);
    let (check_low, check_high) = halves(check);
    if low.wrapping_add(check_low) & high.wrapping_add(check_high) == u32::MAX {
        return if check != 0 { number } else { 0 };
    }
    if low & high & check_low & check_high == u32::MAX {
        u64::MAX
    } else {
        0
    }
}

/// Whether two numbers are a word that isn't torn. It looks at halves of 32 bits, which is shorter
/// on the cores of firmware.
#[inline(always)]
pub(crate) fn is_whole(number: u64, check: u64) -> bool {
    let (low, high) = halves(number);
    let (check_low, check_high) = halves(check);
    if low & high == u32::MAX {
        return check_low & check_high == u32::MAX;
    }
    low.wrapping_add(check_low) & high.wrapping_add(check_high) == u32::MAX
}

/// The lower and the upper 32 bits of a number.
fn halves(number: u64) -> (u32, u32) {
    ((number & 0xffff_ffff) as u32, (number >> 32) as u32)
}
