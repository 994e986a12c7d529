//! The package as C functions, with the names and the types of `ee.h`, so that a program of C makes the same calls by it and by
//! `ee.c`. For tests alone: `../test` builds it.
#![no_std]
#![deny(unsafe_op_in_unsafe_fn)]
#![allow(clippy::missing_safety_doc)] // `ee.h` says it.

mod calls;
mod flash;
mod numbers;
mod opening;
mod rescuing;
mod values;

use core::cell::Cell;
use core::mem::{size_of, MaybeUninit};
use ee_store::proved::{self, Slots};
use flash::{Device, Power};

const EE_OK: u32 = 0;
const EE_NOTHING: u32 = 1;
const EE_FULL: u32 = 2;
const EE_SPENT: u32 = 3;
const EE_ABSENT: u32 = 4;
const EE_UNFORMATTED: u32 = 5;
const EE_NO_LIVE_SET: u32 = 6;
const EE_TWO_LIVE: u32 = 7;
const EE_FOREIGN: u32 = 8;
const EE_DRIVER: u32 = 9;
const EE_NOT_OPEN: u32 = 10;
const EE_WRONG_SHAPE: u32 = 11;
const EE_WRONG_NUMBER: u32 = 12;
const EE_NULL: u32 = 13;
const EE_DUPLICATE: u32 = 14;
const EE_BUSY: u32 = 15;
const EE_OTHER_SHAPE: u32 = 16;

/// `ee_numbers` of `ee.h`.
#[repr(C)]
pub struct Counts {
    slots: u32,
    fill: u32,
    live: u32,
    pending: u32,
    torn: u32,
    generation: u32,
}

/// `ee_store` of `ee.h`. Zeros are one that is off.
#[repr(C)]
pub struct Memory {
    /// The store, while it is on. Its device knows where `power` stands.
    store: MaybeUninit<Kept>,
    /// Null while the store is off.
    power: Power,
    /// Where this memory stands, while the store is on and no call is made on it; so a copy has where another stands. Null in a call,
    /// and while the store is off.
    idle: Cell<*const Memory>,
}

type Kept = proved::Store<Device, Slots>;

const _: () = assert!(size_of::<Memory>() <= size_of::<[usize; 10]>());

/// No call comes here: an index out of range, which is all that could, is proved not to be.
#[panic_handler]
fn panic(_: &core::panic::PanicInfo<'_>) -> ! {
    loop {
        core::hint::spin_loop();
    }
}
