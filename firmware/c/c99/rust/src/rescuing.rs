//! The calls behind an opening that was refused.

use crate::flash::{Device, Flash, Power};
use crate::{
    Memory, EE_DRIVER, EE_NOTHING, EE_NULL, EE_OK, EE_OTHER_SHAPE, EE_SPENT, EE_WRONG_SHAPE,
};
use core::cell::Cell;
use core::ptr::{addr_of, addr_of_mut, null};
use ee_store::proved::{self, RescueFault};
use ee_store::Shape;

/// The shape of a flash that C gives, or the status that refuses it. The pointer is null or good.
unsafe fn shape_of(flash: *const Flash) -> Result<Shape, u32> {
    // SAFETY: a pointer that is not null is good.
    let Some(given) = (unsafe { flash.as_ref() }) else {
        return Err(EE_NULL);
    };
    if given.word.is_none() || given.program.is_none() || given.erase.is_none() {
        return Err(EE_NULL);
    }
    let shape = Shape::new(given.pages as usize, given.page_words as usize);
    match (shape, given.kind) {
        (Some(shape), 0..=3) => Ok(shape),
        _ => Err(EE_WRONG_SHAPE),
    }
}

/// A pair of numbers that no store wrote is torn here, where an opening refuses it.
#[no_mangle]
pub unsafe extern "C" fn ee_rescue(store: *mut Memory, flash: *const Flash) -> u32 {
    if store.is_null() {
        return EE_NULL;
    }
    // SAFETY: a pointer that is not null is good, here and below. The device looks at the power while the store is written.
    let (power, idle) = unsafe { (&*addr_of!((*store).power), &*addr_of!((*store).idle)) };
    power.set(null());
    idle.set(null());
    let shape = match unsafe { shape_of(flash) } {
        Ok(shape) => shape,
        Err(status) => return status,
    };
    power.set(flash);
    // SAFETY: the flash has all functions, and C keeps it and the memory where they are.
    let device = unsafe { Device::new(power, shape) };
    let memory = unsafe { &mut *addr_of_mut!((*store).store) };
    let status = if device.other_shape().is_some() {
        EE_OTHER_SHAPE
    } else {
        match proved::rescue_uncounted(device) {
            Ok((rescued, _)) => {
                memory.write(rescued);
                EE_OK
            }
            Err((_, RescueFault::NothingBegun)) => EE_NOTHING,
            // Or it was cut, and is off.
            Err(_) => EE_SPENT,
        }
    };
    // What the store says counts only where the flash didn't fail.
    if power.get().is_null() {
        return EE_DRIVER;
    }
    match status {
        EE_OK => idle.set(store),
        _ => power.set(null()),
    }
    status
}

#[no_mangle]
pub unsafe extern "C" fn ee_bad_words(flash: *const Flash, count: *mut u32) -> u32 {
    // SAFETY: pointers are null or good, here and below.
    let shape = match unsafe { shape_of(flash) } {
        Ok(shape) => shape,
        Err(status) => return status,
    };
    let Some(count) = (unsafe { count.as_mut() }) else {
        return EE_NULL;
    };
    let power: Power = Cell::new(flash);
    // SAFETY: the flash has all functions, and the power stands here until the words are counted.
    let device = unsafe { Device::new(&power, shape) };
    if device.other_shape().is_some() {
        return EE_OTHER_SHAPE;
    }
    let bad = proved::bad_words(&device) as u32;
    if power.get().is_null() {
        return EE_DRIVER;
    }
    *count = bad;
    EE_OK
}

#[no_mangle]
pub unsafe extern "C" fn ee_other_shape(
    flash: *const Flash,
    pages: *mut u32,
    page_words: *mut u32,
) -> u32 {
    // SAFETY: pointers are null or good, here and below.
    let shape = match unsafe { shape_of(flash) } {
        Ok(shape) => shape,
        Err(status) => return status,
    };
    let (Some(pages), Some(page_words)) = (unsafe { (pages.as_mut(), page_words.as_mut()) }) else {
        return EE_NULL;
    };
    let power: Power = Cell::new(flash);
    // SAFETY: the flash has all functions, and the power stands here until the shape is known.
    let other = unsafe { Device::new(&power, shape) }.other_shape();
    if power.get().is_null() {
        return EE_DRIVER;
    }
    let Some((found, words)) = other else {
        return EE_NOTHING;
    };
    (*pages, *page_words) = (found as u32, words as u32);
    EE_OK
}
