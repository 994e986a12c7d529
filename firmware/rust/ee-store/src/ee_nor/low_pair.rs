// Made by strip from crates/ee_nor/src/low_pair.rt. Change that file.
// SPDX-License-Identifier: MIT OR Apache-2.0
//! The first word of a flash of numbers whose numbers sum to less than all ones.

use crate::ee_nor::Nor;

/// How many words are asked for at once.
const STRETCH: usize = 16;

/// The place of a word whose two numbers sum to less than `u64::MAX`: no store wrote it.
#[derive(Clone, Copy, Debug, PartialEq, Eq)]
pub struct LowPair {
    /// Its page, counted from 0, those of the first set first.
    pub page: usize,
    /// Its place in the page, counted from 0, in words of two numbers.
    pub word: usize,
}

/// The first word whose numbers sum to less than all ones.
pub(crate) fn first_low<N: Nor>(nor: &N) -> Option<LowPair> {
    for page in 0..2 * nor.shape().pages() {
        if let Some(word) = first_low_in(nor, page) {
            return Some(LowPair { page, word });
        }
    }
    None
}

/// The first such word of a page.
fn first_low_in<N: Nor>(nor: &N, page: usize) -> Option<usize> {
    let words = nor.shape().words();
    let mut from = 0;
    while from < words {
        let count = STRETCH.min(words - from);
        if let Some(word) = first_low_from(nor, page, from, count) {
            return Some(word);
        }
        from += count;
    }
    None
}

/// The first such word of so many of a page, from this one on.
fn first_low_from<N: Nor>(nor: &N, page: usize, from: usize, count: usize) -> Option<usize> {
    match nor.window(page, 2 * from, 2 * count) {
        Some(numbers) => match low_in_window(numbers, count) {
            Some(word) => Some(from + word),
            None => None,
        },
        None => low_read(nor, page, from, count),
    }
}

/// The first such word of so many whose numbers stand in memory, two of each.
fn low_in_window(numbers: &[u64], count: usize) -> Option<usize> {
    for word in 0..count {
        if is_low(numbers[2 * word], numbers[2 * word + 1]) {
            return Some(word);
        }
    }
    None
}

/// The first such word of so many that are read.
fn low_read<N: Nor>(nor: &N, page: usize, from: usize, count: usize) -> Option<usize> {
    for word in from..from + count {
        if is_low(nor.read(page, 2 * word), nor.read(page, 2 * word + 1)) {
            return Some(word);
        }
    }
    None
}

/// Whether two numbers sum to less than `u64::MAX`, as those of no word do that a store wrote.
pub fn is_low(number: u64, check: u64) -> bool {
    check < u64::MAX - number
}
