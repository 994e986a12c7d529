// Made by strip from crates/ee_core/src/copying.rt. Change that file.
// SPDX-License-Identifier: MIT OR Apache-2.0
//! The copying of a transfer: the map after its change, written into the other set word by word.

use crate::ee_core::change::{Change, Put};
use crate::ee_core::live_cursor::LiveCursor;
use crate::ee_core::puts::{has_put, values_put};
use crate::ee_codec::Address;
use crate::ee_flash::{Cut, Flash, HEADER_WORDS};
use crate::ee_pages::{Layout, LiveBatch, Mark, first_page, mark, next_batch};

/// Goes over the live addresses of a set, by rising address. It looks through the slots
/// once for each batch.
pub struct Cursor {
    batch: LiveBatch,
    /// How many of the batch it gave.
    given: usize,
}

impl Cursor {
    /// Before the first.
    pub(crate) fn new<F: Flash>(flash: &F, layout: &Layout) -> Cursor {
        let mut cursor = Cursor::unread();
        cursor.begin(flash, layout);
        cursor
    }

    /// With nothing read yet, before it begins.
    pub fn unread() -> Cursor {
        Cursor {
            batch: LiveBatch::new(),
            given: 0,
        }
    }

    /// Begins before the first address of a live set.
    pub fn begin<F: Flash>(&mut self, flash: &F, layout: &Layout) {
        self.given = 0;
        next_batch(flash, layout, None, &mut self.batch);
    }
}

impl LiveCursor for Cursor {
    fn next<F: Flash>(&mut self, flash: &F, layout: &Layout) -> Option<(Address, u32)> {
        next_given(flash, layout, &mut self.batch, &mut self.given)
    }
}

/// The next live address behind those that were given of a batch. Where all were, the batch becomes
/// the next one with an address.
fn next_given<F: Flash>(
    flash: &F,
    layout: &Layout,
    batch: &mut LiveBatch,
    given: &mut usize,
) -> Option<(Address, u32)> {
    loop {
        if let Some(live) = batch.found.get(*given) {
            *given += 1;
            return Some(live);
        }
        let Some(through) = batch.through else {
            return None;
        };
        next_batch(flash, layout, Some(through), batch);
        *given = 0;
    }
}

/// How far a set is filled. A transfer goes on from place to place, so that no word takes a
/// division.
#[derive(Clone, Copy)]
pub(crate) struct Place {
    /// How many slots are filled, which is the number of the next one, counted from 0.
    pub(crate) slot: usize,
    /// The page of the last of them, the set's first page where none is, counted from the device's
    /// first.
    pub(crate) page: usize,
    /// The place behind that slot in this page.
    pub(crate) at: usize,
}

/// Fills the other set, which was opened, with the map after changes: the values that are put come
/// first, in their order, and then each other live address, rising. Where they are forgotten, their
/// addresses are left out alone. Gives how far that fills it.
pub(crate) fn fill_set<F: Flash, C: LiveCursor>(
    flash: &mut F,
    layout: &Layout,
    puts: &[Put],
    forgets: bool,
    cursor: &mut C,
) -> Result<Place, Cut> {
    let first = put_all(flash, layout, values_put(puts, forgets))?;
    let all = copy_others(flash, layout, puts, first, cursor)?;
    Ok(all)
}

/// Writes values into the first slots of the other set, in their order. Gives how far that fills
/// it.
fn put_all<F: Flash>(flash: &mut F, layout: &Layout, puts: &[Put]) -> Result<Place, Cut> {
    let mut place = first_place(flash, layout);
    for put in puts {
        let (address, value) = (put.address, put.value);
        stage_put(flash, layout, &mut place, address, value)?;
    }
    Ok(place)
}

/// Copies each live address but those of the changes to the other set, from this place on. Gives
/// how far it is filled then.
fn copy_others<F: Flash, C: LiveCursor>(
    flash: &mut F,
    layout: &Layout,
    puts: &[Put],
    place: Place,
    cursor: &mut C,
) -> Result<Place, Cut> {
    let mut place = place;
    while let Some((address, value)) = cursor.next(flash, layout) {
        let carries = has_put(puts, address);
        copy_one(flash, layout, carries, &mut place, address, value)?;
    }
    Ok(place)
}

/// Copies a live address to the next slot of the other set, which is filled up to this place, unless
/// it is passed over. The place follows.
fn copy_one<F: Flash>(
    flash: &mut F,
    layout: &Layout,
    passed: bool,
    place: &mut Place,
    address: Address,
    value: u32,
) -> Result<(), Cut> {
    if passed {
        return Ok(());
    }
    stage_put(flash, layout, place, address, value)?;
    Ok(())
}

/// Writes an address with its value into the next slot of the other set, which is filled up to this
/// place, as `stage` does a change. The place follows. Both callers hand these over in registers,
/// which makes firmware smaller.
#[inline(never)]
fn stage_put<F: Flash>(
    flash: &mut F,
    layout: &Layout,
    place: &mut Place,
    address: Address,
    value: u32,
) -> Result<(), Cut> {
    let next = next_place(flash, layout, *place);
    stage(flash, layout, next, Change::Put { address, value })?;
    *place = Place {
        slot: next.slot + 1,
        page: next.page,
        at: next.at + 1,
    };
    Ok(())
}

/// Writes a change into this place of the other set, its first free slot. A further page gets its
/// receive word first.
fn stage<F: Flash>(flash: &mut F, layout: &Layout, place: Place, change: Change) -> Result<(), Cut> {
    if place.at == HEADER_WORDS {
        receive(flash, layout, place)?;
    }
    put_in(flash, layout, place, change)?;
    Ok(())
}

/// Gives the page of this place of the other set the receive word, if it has none.
fn receive<F: Flash>(flash: &mut F, layout: &Layout, place: Place) -> Result<(), Cut> {
    mark(flash, place.page, Mark::Receive(layout.generation + 1))?;
    Ok(())
}

/// Programs a change into this place of the other set, its first free slot.
fn put_in<F: Flash>(flash: &mut F, layout: &Layout, place: Place, change: Change) -> Result<(), Cut> {
    flash.program(place.page, place.at, change.word())?;
    Ok(())
}

/// How far a set is filled that was opened.
fn first_place<F: Flash>(flash: &F, layout: &Layout) -> Place {
    Place {
        slot: 0,
        page: first_page(flash, layout.side.other()),
        at: HEADER_WORDS,
    }
}

/// The place of the next slot of the other set, which is filled up to this place: one further in
/// the page, or the first one of the next page.
fn next_place<F: Flash>(flash: &F, layout: &Layout, place: Place) -> Place {
    if place.at == flash.shape().words() {
        return Place {
            slot: place.slot,
            page: place.page + 1,
            at: HEADER_WORDS,
        };
    }
    place
}
