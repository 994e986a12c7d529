// Made by strip from crates/ee_core/src/rescuing.rt. Change that file.
// SPDX-License-Identifier: MIT OR Apache-2.0
//! A rescue: the map that a set says is moved to the other set, whatever stands in either.

use crate::ee_core::moving::transfer_by_slots;
use crate::ee_core::store::{GREATEST_GENERATION, Store};
use crate::ee_flash::{Cut, Flash};
use crate::ee_pages::{Layout, Side, bad_words, named_generation, rescued_side};

/// What a rescue found and made.
#[derive(Clone, Copy, Debug, PartialEq, Eq)]
pub struct Rescued {
    /// How many words of the set that was rescued were bad: they can't be read, or may not stand
    /// where they stood. 0 to the words of a set.
    pub bad_words: usize,
    /// How many addresses have a value, 0 to the capacity.
    pub live: usize,
}

/// Why a device isn't rescued, the first cause that applies.
#[derive(Clone, Copy, Debug, PartialEq, Eq)]
pub enum RescueFault {
    /// No set is begun: in each the mark that commits it is erased. Nothing changed.
    NothingBegun,
    /// The set that would be rescued names the greatest generation, 4294967294. Nothing changed.
    Spent,
    /// Power failed. The device is off.
    Cut,
}

/// Makes a store of a device that is on, whatever stands in it. The map of the set that is rescued
/// moves to the other set, in the generation above the one that it names. It takes no memory.
///
/// # Errors
///
/// The device and the first `RescueFault` that applies.
pub fn rescue<F: Flash>(flash: F) -> Result<(Store<F>, Rescued), (F, RescueFault)> {
    let bad_words = bad_words(&flash);
    match rescue_uncounted(flash) {
        Ok((store, live)) => Ok((store, Rescued { bad_words, live })),
        Err(failed) => Err(failed),
    }
}

/// Makes a store as `rescue` does, and counts no bad words, so that firmware that doesn't ask for
/// them carries no code for it. Gives how many addresses have a value, 0 to the capacity.
///
/// # Errors
///
/// The device and the first `RescueFault` that applies.
pub fn rescue_uncounted<F: Flash>(flash: F) -> Result<(Store<F>, usize), (F, RescueFault)> {
    let mut flash = flash;
    let Some(side) = rescued_side(&flash) else {
        return Err((flash, RescueFault::NothingBegun));
    };
    let generation = named_generation(&flash, side);
    if generation == GREATEST_GENERATION {
        return Err((flash, RescueFault::Spent));
    }
    match rescue_set(&mut flash, side, generation) {
        Ok(layout) => {
            let live = layout.fill;
            Ok((Store::of(flash, layout), live))
        }
        Err(Cut) => Err((flash, RescueFault::Cut)),
    }
}

/// Moves the map that a set says to the other set, in the generation above this one, which is no
/// smaller than the one that the set is committed with. Gives the layout there.
fn rescue_set<F: Flash>(flash: &mut F, side: Side, generation: u32) -> Result<Layout, Cut> {
    let mut layout = Layout {
        side,
        generation,
        fill: 0,
        current: 0,
    };
    transfer_by_slots(flash, &mut layout, &[], false)?;
    Ok(layout)
}
