// Made by strip from crates/ee_pages/src/runs.rt. Change that file.
// SPDX-License-Identifier: MIT OR Apache-2.0
//! The words of a page, several at a time.

use crate::ee_flash::Flash;

/// How many words a loop over a page asks its flash for at once.
pub(crate) const RUN: usize = 16;

/// What stands in the room for a run before that is read: any number. Its halves are alike, since
/// cores of 32 bits write such a number with less code.
pub(crate) const UNREAD: u64 = 0x1_0000_0001;

/// Readings of the words of a page from a place on: up to `RUN` of them, all before
/// `end`, and at least one.
#[inline(always)]
pub(crate) fn run_from<'a, F: Flash>(
    flash: &'a F,
    page: usize,
    at: usize,
    end: usize,
    room: &'a mut [u64; RUN],
) -> &'a [u64] {
    let count = RUN.min(end - at);
    flash.run(page, at, &mut room[..count])
}
