//! C's lists of values, as the store's.

use core::mem::{align_of, size_of, transmute};
use core::slice::{from_raw_parts, from_raw_parts_mut};
use ee_store::{Address, Put};

/// `ee_value` of `ee.h`: a `Put`, but that its address may be no proper one.
#[repr(C)]
pub struct Value {
    address: u16,
    value: u32,
}

/// Whether the bytes of an address are those of its number, and a `Put` begins with them.
const fn is_laid_out_alike(number: u16) -> bool {
    let Some(address) = Address::new(number) else {
        return false;
    };
    let put = Put { address, value: 0 };
    let (start, first): (*const Put, *const Address) = (&put, &put.address);
    // SAFETY: both pointers are into `put`; and every number of 16 bits is a `u16`.
    unsafe {
        first.cast::<u8>().offset_from(start.cast()) == 0
            && transmute::<Address, u16>(address) == number
    }
}

const _: () = assert!(is_laid_out_alike(258));
const _: () = assert!(size_of::<Value>() == size_of::<Put>());
const _: () = assert!(align_of::<Value>() == align_of::<Put>());

/// C's list as one of the store's, none where one of its numbers is no address. The pointer is good for so many values.
pub unsafe fn listed<'a>(values: *const Value, count: u32) -> Option<&'a [Put]> {
    // SAFETY: the pointer is good.
    let given = unsafe { from_raw_parts(values, count as usize) };
    if given.iter().any(|it| Address::new(it.address).is_none()) {
        return None;
    }
    // SAFETY: each address is proper, so each is a `Put`, which is laid out alike.
    Some(unsafe { from_raw_parts(values.cast(), count as usize) })
}

/// The same of a list that is written.
pub unsafe fn listed_mut<'a>(values: *mut Value, count: u32) -> Option<&'a mut [Put]> {
    // SAFETY: as of the caller's.
    unsafe { listed(values, count) }?;
    // SAFETY: as above, and no other reference to it is kept.
    Some(unsafe { from_raw_parts_mut(values.cast(), count as usize) })
}
