// Made by strip from crates/ee_pages/src/batch.rt. Change that file.
// SPDX-License-Identifier: MIT OR Apache-2.0
//! The next live addresses, as many as are found in one look through the slots.

use crate::ee_pages::batch_items::Batch;
use crate::ee_pages::find::Layout;
use crate::ee_pages::number::address_in;
use crate::ee_pages::runs::{RUN, UNREAD, run_from};
use crate::ee_pages::side::{Side, first_page};
use crate::ee_codec::Address;
use crate::ee_flash::{Flash, HEADER_WORDS, Word};

/// The live addresses of a stretch of addresses, with their values: as many as are found in one
/// look through the slots.
pub struct LiveBatch {
    /// By rising address.
    pub found: Batch,
    /// Behind them no address up to this one is live, or none at all.
    pub through: Option<Address>,
}

impl LiveBatch {
    /// One with no addresses. It stays out of the calls that begin with one, since it is long.
    #[inline(never)]
    pub fn new() -> LiveBatch {
        LiveBatch {
            found: Batch::new(),
            through: None,
        }
    }
}

/// Puts the next live addresses above `after`, or the first of all if `after` is `None`, into a
/// batch, with their values, in place of what it held: up to `BATCH`, from one look through the
/// slots. There may be none, and more behind `through`, where addresses were forgotten. The
/// layout is the image's.
pub fn next_batch<F: Flash>(
    flash: &F,
    layout: &Layout,
    after: Option<Address>,
    batch: &mut LiveBatch,
) {
    batch.found.take_out();
    gather(flash, layout.side, number_of(after), &mut batch.found);
    batch.through = batch.found.last_if_full();
    batch.found.keep_living();
}

/// The number above which a batch begins.
fn number_of(after: Option<Address>) -> u16 {
    match after {
        None => 0,
        Some(address) => address.get(),
    }
}

/// Puts in the next addresses above this one of which a slot says something, each with
/// what the last one says.
fn gather<F: Flash>(flash: &F, side: Side, above: u16, nearest: &mut Batch) {
    for page in 0..flash.shape().pages() {
        gather_page(flash, side, page, above, nearest);
    }
}

/// Notes what the slots of a page say, behind those of the pages before.
fn gather_page<F: Flash>(flash: &F, side: Side, page: usize, above: u16, nearest: &mut Batch) {
    let here = first_page(flash, side) + page;
    let words = flash.shape().words();
    let mut span = span_of(nearest, above);
    let mut room = [UNREAD; RUN];
    let mut at = HEADER_WORDS;
    while at < words {
        let run = run_from(flash, here, at, words, &mut room);
        at += run.len();
        span = note_all(flash, above, span, run, nearest);
    }
}

/// Notes what the words of these readings say, of so many addresses above this one, which are those
/// that have a place in the batch. Gives how many have one then.
#[inline(never)]
fn note_all<F: Flash>(
    flash: &F,
    above: u16,
    span: u32,
    readings: &[u64],
    nearest: &mut Batch,
) -> u32 {
    let mut span = span;
    for reading in readings {
        span = note_within(flash, above, span, *reading, nearest);
    }
    span
}

/// Notes what the word of a reading says, if it is of one of so many addresses above this one.
fn note_within<F: Flash>(flash: &F, above: u16, span: u32, reading: u64, nearest: &mut Batch) -> u32 {
    // Asked first, since most words are of an address that has no place in a batch.
    let address = address_in(reading);
    if !is_within(address, above, span) {
        return span;
    }
    let number = flash.number(reading);
    if address_in(number) != address {
        return span;
    }
    if nearest.note_any(number) {
        span_of(nearest, above)
    } else {
        span
    }
}

/// How many addresses above this one have a place in a batch.
fn span_of(nearest: &Batch, above: u16) -> u32 {
    u32::from(nearest.greatest() - above)
}

/// Whether an address is one of so many above another one.
fn is_within(address: u16, above: u16, span: u32) -> bool {
    // One comparison, since what is no greater than `above` wraps.
    u32::from(address).wrapping_sub(u32::from(above) + 1) < span
}
