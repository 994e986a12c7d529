//! The calls that open a store.

use crate::flash::{Device, Flash};
use crate::numbers::How;
use crate::{
    Kept, Memory, EE_DRIVER, EE_FOREIGN, EE_NO_LIVE_SET, EE_NULL, EE_OK, EE_OTHER_SHAPE,
    EE_TWO_LIVE, EE_UNFORMATTED, EE_WRONG_SHAPE,
};
use core::mem::MaybeUninit;
use core::ptr::{addr_of, addr_of_mut, null};
use ee_store::proved::{self, Cut, Known, Nor as _, OpenFault, Pairs, ScanFault, Slots};
use ee_store::Shape;

/// Opens the store of a device, or makes one there, in the memory that C lends. Gives the status.
fn kept(lent: &mut MaybeUninit<Kept>, mut device: Device, how: How) -> u32 {
    let opened = match how {
        How::Open => proved::open_on(&mut device),
        How::Start => proved::start_on(&mut device),
        How::Format => proved::write_format(&mut device).map_err(|Cut| OpenFault::Cut),
    };
    match opened {
        Ok(layout) => {
            let lookup = Slots;
            lent.write(proved::store_of(device, Known { layout, lookup }));
            EE_OK
        }
        Err(OpenFault::Scan(ScanFault::Unformatted)) => EE_UNFORMATTED,
        Err(OpenFault::Scan(ScanFault::NoLiveSet)) => EE_NO_LIVE_SET,
        Err(OpenFault::Scan(ScanFault::TwoLive)) => EE_TWO_LIVE,
        Err(OpenFault::Scan(ScanFault::Foreign { .. })) => EE_FOREIGN,
        // It was cut, and is off.
        Err(OpenFault::Cut) => EE_DRIVER,
    }
}

/// Says how a flash is opened, or the status that refuses it. One of numbers or of coded words that holds more than a first start
/// that was cut leaves is opened, and no first store made there: `Store::open_or_format` of ee-store does so too.
fn prepared(device: &Device, how: How) -> Result<How, u32> {
    if how == How::Format {
        // Its own first steps are those of `wipe` of `Pairs` and `Coded`: it erases each page that isn't blank, by rising page.
        return Ok(how);
    }
    if device.other_shape().is_some() {
        return Err(EE_OTHER_SHAPE);
    }
    let mut cleared = None;
    if let Some(numbers) = device.numbers() {
        if how == How::Start && numbers.clears_first() {
            cleared = Some(numbers.read(0, 1));
        }
        if Pairs::of(numbers).is_err() {
            return Err(EE_FOREIGN);
        }
    } else if device.codes().is_none() {
        return Ok(how);
    }
    if how == How::Start && proved::holds_more(device, cleared) {
        return Ok(How::Open);
    }
    Ok(how)
}

/// Opens a store over C's flash, and keeps it in the memory that C lends. Pointers are null or good.
unsafe fn opened(lent: *mut Memory, flash: *const Flash, how: How) -> u32 {
    if lent.is_null() {
        return EE_NULL;
    }
    // SAFETY: a pointer that is not null is good, here and below. The device looks at the power while the store is written.
    let (power, idle) = unsafe { (&*addr_of!((*lent).power), &*addr_of!((*lent).idle)) };
    power.set(null());
    idle.set(null());
    let Some(given) = (unsafe { flash.as_ref() }) else {
        return EE_NULL;
    };
    if given.word.is_none() || given.program.is_none() || given.erase.is_none() {
        return EE_NULL;
    }
    let shape = Shape::new(given.pages as usize, given.page_words as usize);
    let (Some(shape), 0..=3) = (shape, given.kind) else {
        return EE_WRONG_SHAPE;
    };
    power.set(flash);
    // SAFETY: the flash has all functions, and C keeps it and the memory where they are.
    let device = unsafe { Device::new(power, shape) };
    let memory = unsafe { &mut *addr_of_mut!((*lent).store) };
    let status = match prepared(&device, how) {
        Ok(how) => kept(memory, device, how),
        Err(status) => status,
    };
    // What the store says counts only where the flash didn't fail.
    if power.get().is_null() {
        return EE_DRIVER;
    }
    match status {
        EE_OK => idle.set(lent),
        _ => power.set(null()),
    }
    status
}

#[no_mangle]
pub unsafe extern "C" fn ee_open(store: *mut Memory, flash: *const Flash) -> u32 {
    // SAFETY: as `ee.h` says, here and below.
    unsafe { opened(store, flash, How::Open) }
}

#[no_mangle]
pub unsafe extern "C" fn ee_start(store: *mut Memory, flash: *const Flash) -> u32 {
    unsafe { opened(store, flash, How::Start) }
}

#[no_mangle]
pub unsafe extern "C" fn ee_format(store: *mut Memory, flash: *const Flash) -> u32 {
    unsafe { opened(store, flash, How::Format) }
}
