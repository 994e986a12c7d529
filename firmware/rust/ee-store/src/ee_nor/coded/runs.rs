// Made by strip from crates/ee_nor/src/coded/runs.rt. Change that file.
// SPDX-License-Identifier: MIT OR Apache-2.0
//! Numbers of the flash one behind another, as they read.

use crate::ee_nor::coded::ecc_nor::EccNor;

/// Puts as many numbers as there is room for into the room, from a place of a page on, with no look
/// at what they say. One that can't be read is 0 there, which is no coded word.
pub(crate) fn fill_run<N: EccNor>(nor: &N, page: usize, at: usize, room: &mut [u64]) {
    for (behind, reading) in room.iter_mut().enumerate() {
        *reading = nor.read(page, at + behind).unwrap_or(0);
    }
}
