// Made by strip from crates/ee_pages/src/marking.rt. Change that file.
// SPDX-License-Identifier: MIT OR Apache-2.0
//! A mark as a step: none where its word is written.

use crate::ee_pages::state::{Mark, is_written};
use crate::ee_codec::{MARK, receive_word};
use crate::ee_flash::{Cut, Flash};

/// Programs a mark, unless its word is written, torn or not: then it takes no step. Pages are
/// numbered from 0, those of the first set first.
///
/// # Errors
///
/// `Cut`, only with the device off afterwards: power failed in this step, or was off before it and
/// nothing changed.
pub fn mark<F: Flash>(flash: &mut F, page: usize, mark: Mark) -> Result<(), Cut> {
    let (at, number) = match mark {
        Mark::Receive(generation) => (0, receive_word(generation)),
        Mark::Active => (1, MARK),
        Mark::Valid => (2, MARK),
        Mark::Erasing => (3, MARK),
    };
    if is_written(flash.word(page, at)) {
        return Ok(());
    }
    flash.program(page, at, number)
}
