//! The calls on a store that is open: `ee.h` says what they do.

use crate::values::{listed, listed_mut, Value};
use crate::{
    Counts, Kept, Memory, EE_ABSENT, EE_BUSY, EE_DRIVER, EE_DUPLICATE, EE_FULL, EE_NOTHING,
    EE_NOT_OPEN, EE_NULL, EE_OK, EE_SPENT, EE_WRONG_NUMBER,
};
use core::ptr::{addr_of, eq, null};
use core::sync::atomic::{compiler_fence, Ordering};
use ee_store::proved::{ForgetFault, Variables, WriteAllFault, WriteFault};
use ee_store::{Address, Put, Wanted};

/// A store that is on, while a call is made on it.
struct Running<'a> {
    memory: *const Memory,
    store: &'a mut Kept,
}

impl Running<'_> {
    /// Ends a call that answered this, and gives its status. Where the flash failed what the store says counts for nothing.
    fn ended(self, status: u32) -> u32 {
        if self.is_broken() {
            return EE_DRIVER;
        }
        self.ended_well(status)
    }

    /// The same where the flash didn't fail: the store takes a call again.
    fn ended_well(self, status: u32) -> u32 {
        // An interrupt that comes behind this finds the store as the call left it.
        compiler_fence(Ordering::SeqCst);
        // SAFETY: `running` had it of C.
        unsafe { (*addr_of!((*self.memory).idle)).set(self.memory) };
        status
    }

    /// Whether the flash failed since.
    fn is_broken(&self) -> bool {
        // SAFETY: `running` had it of C.
        unsafe { (*addr_of!((*self.memory).power)).get().is_null() }
    }
}

/// Begins a call on the store in the memory that C lends: EE_OK, or why not. The pointer is null, or good: to what `opened` left,
/// to a copy of that, or to zeros. No call begins with another pointer that is null, nor with a number that is no address.
unsafe fn begun(memory: *const Memory, address: u16, other: *const ()) -> u32 {
    if memory.is_null() {
        return EE_NULL;
    }
    // SAFETY: a pointer that is not null is good.
    let (power, idle) = unsafe { (&*addr_of!((*memory).power), &*addr_of!((*memory).idle)) };
    if eq(idle.get(), memory) {
        if other.is_null() {
            return EE_NULL;
        }
        if Address::new(address).is_none() {
            return EE_WRONG_NUMBER;
        }
        idle.set(null());
        // A call of an interrupt's that came before this has ended, and may have failed. Behind it there is none.
        compiler_fence(Ordering::SeqCst);
        if !power.get().is_null() {
            return EE_OK;
        }
    }
    match idle.get().is_null() && !power.get().is_null() {
        true => EE_BUSY,
        false => EE_NOT_OPEN,
    }
}

/// An address for `begun` of a call that has none.
const NO_ADDRESS: u16 = 1;

/// The store in the memory that C lends, where a call can be made on it, with this address and this other pointer; `ended` ends
/// that. The first pointer is as of `begun`.
unsafe fn running<'a>(
    memory: *const Memory,
    address: u16,
    other: *const (),
) -> Result<(Running<'a>, Address), u32> {
    match unsafe { begun(memory, address, other) } {
        // SAFETY: it is on, so the memory has a store, and no other call is on it, as `begun` saw; and that it is an address.
        EE_OK => Ok(unsafe {
            let store = &mut *addr_of!((*memory).store).cast::<Kept>().cast_mut();
            let address = Address::new(address).unwrap_unchecked();
            (Running { memory, store }, address)
        }),
        status => Err(status),
    }
}

/// The same for a call that has neither.
unsafe fn running_alone<'a>(memory: *const Memory) -> Result<Running<'a>, u32> {
    unsafe { running(memory, NO_ADDRESS, memory.cast()) }.map(|(running, _)| running)
}

#[no_mangle]
pub unsafe extern "C" fn ee_write(store: *mut Memory, address: u16, value: u32) -> u32 {
    let (running, address) = match unsafe { running(store, address, store.cast()) } {
        Ok(running) => running,
        Err(status) => return status,
    };
    let status = match running.store.write(address, value) {
        Ok(_) => EE_OK,
        Err(WriteFault::Full) => EE_FULL,
        // Or it was cut, and is broken. It takes no memory, and never says `Memory`.
        Err(_) => EE_SPENT,
    };
    running.ended(status)
}

#[no_mangle]
pub unsafe extern "C" fn ee_write_all(store: *mut Memory, values: *const Value, count: u32) -> u32 {
    let (running, _) = match unsafe { running(store, NO_ADDRESS, values.cast()) } {
        Ok(running) => running,
        Err(status) => return status,
    };
    let Some(values) = (unsafe { listed(values, count) }) else {
        return running.ended_well(EE_WRONG_NUMBER);
    };
    // A list of one is written as by the call of one value.
    if let [put] = values {
        running.ended_well(EE_OK);
        return unsafe { ee_write(store, put.address.get(), put.value) };
    }
    let status = match running.store.write_all(values) {
        Ok(_) => EE_OK,
        Err(WriteAllFault::Twice(_)) => EE_DUPLICATE,
        Err(WriteAllFault::Full) => EE_FULL,
        // As of `write`.
        Err(_) => EE_SPENT,
    };
    running.ended(status)
}

#[no_mangle]
pub unsafe extern "C" fn ee_forget(store: *mut Memory, address: u16) -> u32 {
    let (running, address) = match unsafe { running(store, address, store.cast()) } {
        Ok(running) => running,
        Err(status) => return status,
    };
    let status = match running.store.forget(address) {
        Ok(_) => EE_OK,
        Err(ForgetFault::Absent) => EE_ABSENT,
        Err(_) => EE_SPENT,
    };
    running.ended(status)
}

#[no_mangle]
pub unsafe extern "C" fn ee_forget_all(store: *mut Memory) -> u32 {
    let running = match unsafe { running_alone(store) } {
        Ok(running) => running,
        Err(status) => return status,
    };
    let status = match running.store.clear() {
        Ok(_) => EE_OK,
        // Or it was cut, and is broken.
        Err(_) => EE_SPENT,
    };
    running.ended(status)
}

#[no_mangle]
pub unsafe extern "C" fn ee_clean(store: *mut Memory) -> u32 {
    let running = match unsafe { running_alone(store) } {
        Ok(running) => running,
        Err(status) => return status,
    };
    let status = match running.store.clean_step() {
        Ok(true) => EE_OK,
        _ => EE_NOTHING,
    };
    running.ended(status)
}

#[no_mangle]
pub unsafe extern "C" fn ee_read(store: *const Memory, address: u16, value: *mut u32) -> u32 {
    let (running, address) = match unsafe { running(store, address, value.cast_const().cast()) } {
        Ok(running) => running,
        Err(status) => return status,
    };
    let found = running.store.read(address);
    if running.is_broken() {
        return EE_DRIVER;
    }
    let Ok(Some(held)) = found else {
        return running.ended_well(EE_NOTHING);
    };
    // SAFETY: `begun` saw that it is not null, so it is good.
    unsafe { *value = held };
    running.ended_well(EE_OK)
}

/// For how many addresses a look through the slots is made.
const WANTED: usize = 32;

/// Loads some values, and gives how many there are.
fn loaded_of(running: &Running, values: &mut [Put]) -> u32 {
    let none = Wanted {
        address: Address::at(1),
        value: None,
    };
    let mut wanted = [none; WANTED];
    let wanted = &mut wanted[..values.len()];
    for (wanted, put) in wanted.iter_mut().zip(values.iter()) {
        wanted.address = put.address;
    }
    // A store that is off is broken.
    let _ = running.store.load(wanted);
    let mut found = 0;
    if running.is_broken() {
        return found;
    }
    for (wanted, put) in wanted.iter().zip(values) {
        if let Some(value) = wanted.value {
            put.value = value;
            found += 1;
        }
    }
    found
}

#[no_mangle]
pub unsafe extern "C" fn ee_load(
    store: *const Memory,
    values: *mut Value,
    count: u32,
    loaded: *mut u32,
) -> u32 {
    let (running, _) = match unsafe { running(store, NO_ADDRESS, values.cast_const().cast()) } {
        Ok(running) => running,
        Err(status) => return status,
    };
    let Some(loaded) = (unsafe { loaded.as_mut() }) else {
        return running.ended_well(EE_NULL);
    };
    let Some(values) = (unsafe { listed_mut(values, count) }) else {
        return running.ended_well(EE_WRONG_NUMBER);
    };
    let mut found = 0;
    for values in values.chunks_mut(WANTED) {
        found += loaded_of(&running, values);
        if running.is_broken() {
            return EE_DRIVER;
        }
    }
    *loaded = found;
    running.ended_well(EE_OK)
}

#[no_mangle]
pub unsafe extern "C" fn ee_next(store: *const Memory, address: *mut u16, value: *mut u32) -> u32 {
    let (running, _) = match unsafe { running(store, NO_ADDRESS, value.cast_const().cast()) } {
        Ok(running) => running,
        Err(status) => return status,
    };
    let Some(address) = (unsafe { address.as_mut() }) else {
        return running.ended_well(EE_NULL);
    };
    let after = match (*address, Address::new(*address)) {
        (0, _) => None,
        (_, Some(after)) => Some(after),
        (_, None) => return running.ended_well(EE_WRONG_NUMBER),
    };
    let found = running.store.next_live(after);
    if running.is_broken() {
        return EE_DRIVER;
    }
    let Some((found, held)) = found else {
        return running.ended_well(EE_NOTHING);
    };
    *address = found.get();
    // SAFETY: as of `read`.
    unsafe { *value = held };
    running.ended_well(EE_OK)
}

#[no_mangle]
pub unsafe extern "C" fn ee_counts(store: *const Memory, numbers: *mut Counts) -> u32 {
    let (running, _) = match unsafe { running(store, NO_ADDRESS, numbers.cast_const().cast()) } {
        Ok(running) => running,
        Err(status) => return status,
    };
    let store = &running.store;
    let live = store.live_count() as u32;
    let torn = store.torn_slots() as u32;
    let pending = store.pending() as u32;
    if running.is_broken() {
        return EE_DRIVER;
    }
    let counted = Counts {
        slots: store.slots() as u32,
        fill: store.fill() as u32,
        live,
        pending,
        torn,
        generation: store.generation(),
    };
    // SAFETY: as of `read`.
    unsafe { *numbers = counted };
    running.ended_well(EE_OK)
}
