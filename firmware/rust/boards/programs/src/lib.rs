//! What the three programs share. None was on a board.
#![no_std]
#![forbid(unsafe_code)]

use ee_store::{Address, Driver, Error, Store};

const STARTS: Address = Address::at(1);

/// Counts a start. Behind an error the flash may have counted it: read the count by
/// [`reopen`](Store::reopen), and write the same again.
///
/// # Errors
///
/// Why nothing was counted, or not surely.
pub fn count_start<D: Driver>(settings: &mut Store<D>) -> Result<u32, Error<D::Error>> {
    let starts = settings.read_or(STARTS, 0)? + 1;
    settings.write(STARTS, starts)?;
    Ok(starts)
}
