// Made by strip from crates/ee_nor/src/coded/wiping.rt. Change that file.
// SPDX-License-Identifier: MIT OR Apache-2.0
//! A flash of numbers that is blank, but for what a first start left, or is made so.

use crate::ee_nor::coded::ecc_nor::EccNor;
use crate::ee_flash::Cut;

/// How many words of page 0 a first start writes.
const FIRST_WORDS: usize = 2;

/// Whether each number reads as erased but the first two of page 0.
pub(crate) fn may_be_new<N: EccNor>(nor: &N) -> bool {
    if !is_blank_from(nor, 0, FIRST_WORDS) {
        return false;
    }
    for page in 1..2 * nor.shape().pages() {
        if !is_blank_from(nor, page, 0) {
            return false;
        }
    }
    true
}

/// Erases each page that holds something, by rising page.
pub(crate) fn wipe<N: EccNor>(nor: &mut N) -> Result<(), Cut> {
    for page in 0..2 * nor.shape().pages() {
        if !is_blank_from(nor, page, 0) {
            nor.erase(page)?;
        }
    }
    Ok(())
}

/// Whether each number of a page reads as erased, from a place on.
fn is_blank_from<N: EccNor>(nor: &N, page: usize, from: usize) -> bool {
    for at in from..nor.shape().words() {
        if is_written(nor, page, at) {
            return false;
        }
    }
    true
}

/// Whether a number reads as something else than erased, or can't be read.
fn is_written<N: EccNor>(nor: &N, page: usize, at: usize) -> bool {
    nor.read(page, at) != Some(u64::MAX)
}
