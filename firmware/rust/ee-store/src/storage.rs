// What a `NorDriver` asks of a flash. The calls that wait have their own.
pub(crate) use embedded_storage::nor_flash::{NorFlash, ReadNorFlash};

use core::cell::{RefCell, RefMut};

/// The flash, to be read.
pub(crate) fn borrowed<F>(flash: &RefCell<F>) -> RefMut<'_, F> {
    flash.borrow_mut()
}
