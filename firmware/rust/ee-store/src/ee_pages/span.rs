// Made by strip from crates/ee_pages/src/span.rt. Change that file.
// SPDX-License-Identifier: MIT OR Apache-2.0
//! The values of addresses that follow one another, by one look through the slots.

use crate::ee_pages::find::Layout;
use crate::ee_pages::number::address_in;
use crate::ee_pages::read::said;
use crate::ee_pages::runs::{RUN, UNREAD};
use crate::ee_pages::side::{Side, first_page};
use crate::ee_codec::{Address, element_word};
use crate::ee_flash::{Flash, HEADER_WORDS, Word};

/// How many addresses a span has at the most.
pub const SPAN: usize = 16;

/// A number that says nothing, of an address.
const UNSAID: u64 = 0x2_0001;

/// Addresses that follow one another, at least one and up to `SPAN`, with their values.
pub struct Span {
    first: Address,
    count: usize,
    /// Of each address the number of an element or a forgetting, or one that says nothing.
    numbers: [u64; SPAN],
}

impl Span {
    /// So many addresses from this one on, or fewer, of which nothing is said.
    fn new(first: Address, count: usize) -> Span {
        let behind = usize::from(u16::MAX - first.get());
        Span {
            first,
            count: count.min(SPAN).min(behind),
            numbers: [UNSAID; SPAN],
        }
    }

    /// The one address with this value, `None` if it has none.
    pub fn of_one(address: Address, value: Option<u32>) -> Span {
        let mut span = Span::new(address, 1);
        if let Some(value) = value {
            span.numbers[0] = element_word(address, value);
        }
        span
    }

    /// The value of an address: `None` if the span doesn't have the address, and `Some(None)` if
    /// the address has no value.
    pub fn get(&self, address: Address) -> Option<Option<u32>> {
        let at = usize::from(address.get().wrapping_sub(self.first.get()));
        if at >= self.count {
            return None;
        }
        match said(self.numbers[at]) {
            Some(value) => Some(value),
            None => Some(None),
        }
    }

    /// Notes what the word of a reading says, if it is of one of the addresses, of which nothing is
    /// said.
    fn note<F: Flash>(&mut self, flash: &F, reading: u64) {
        let address = address_in(reading);
        let at = usize::from(address.wrapping_sub(self.first.get()));
        if at < self.count && said(self.numbers[at]).is_none() {
            let number = flash.number(reading);
            if address_in(number) == address {
                self.numbers[at] = number;
            }
        }
    }

    /// Of how many of the first addresses something is said, where it is of so many.
    fn said_from(&self, before: usize) -> usize {
        let mut said_to = before;
        while said_to < self.count && said(self.numbers[said_to]).is_some() {
            said_to += 1;
        }
        said_to
    }

    /// How many addresses there are.
    fn count(&self) -> usize {
        self.count
    }
}

/// The values of so many addresses from this one on, or of fewer. It reads the slots in runs from
/// the newest down, each once, to one at which all have been found. The layout is the image's.
///
/// Source: the last element written for an address is its value, AN4894; the rest is ours.
pub fn read_span<F: Flash>(flash: &F, layout: &Layout, first: Address, count: usize) -> Span {
    let slots = flash.shape().words() - HEADER_WORDS;
    let last = layout.current - first_page(flash, layout.side);
    let mut span = Span::new(first, count);
    let mut said_to = 0;
    let mut left = layout.fill;
    for page in (0..last + 1).rev() {
        let before = page * slots;
        said_to = tell_page(flash, layout.side, page, left - before, &mut span, said_to);
        left = before;
    }
    span
}

/// Notes what the first `used` slots of a page say, which stand before those noted, unless
/// something is said of all addresses. Something is said of the first `before`; gives of how many.
fn tell_page<F: Flash>(
    flash: &F,
    side: Side,
    page: usize,
    used: usize,
    span: &mut Span,
    before: usize,
) -> usize {
    let here = first_page(flash, side) + page;
    let mut room = [UNREAD; RUN];
    let mut said_to = before;
    let mut left = used;
    while left > 0 && said_to < span.count() {
        let count = RUN.min(left);
        left -= count;
        let run = flash.run(here, HEADER_WORDS + left, &mut room[..count]);
        tell_run(flash, run, span);
        said_to = span.said_from(said_to);
    }
    said_to
}

/// Notes what the words of these readings say, which stand before those noted.
fn tell_run<F: Flash>(flash: &F, readings: &[u64], span: &mut Span) {
    let mut left = readings.len();
    while left > 0 {
        left -= 1;
        span.note(flash, readings[left]);
    }
}
