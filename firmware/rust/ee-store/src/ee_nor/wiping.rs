// Made by strip from crates/ee_nor/src/wiping.rt. Change that file.
// SPDX-License-Identifier: MIT OR Apache-2.0
//! A flash of numbers made blank.

use crate::ee_nor::Nor;
use crate::ee_flash::Cut;

/// Erases each page that holds something, by rising page.
pub(crate) fn wipe<N: Nor>(nor: &mut N) -> Result<(), Cut> {
    for page in 0..2 * nor.shape().pages() {
        if !is_blank(nor, page) {
            nor.erase(page)?;
        }
    }
    Ok(())
}

/// Whether each number of a page is all ones.
fn is_blank<N: Nor>(nor: &N, page: usize) -> bool {
    for at in 0..2 * nor.shape().words() {
        if nor.read(page, at) != u64::MAX {
            return false;
        }
    }
    true
}
