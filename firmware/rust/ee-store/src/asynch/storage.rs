// What a `NorDriver` asks of a flash, where its reads wait too.
pub(crate) use embedded_storage_async::nor_flash::{NorFlash, ReadNorFlash};

use core::cell::{RefCell, RefMut};
use core::future::poll_fn;
use core::task::Poll;

/// The flash, to be read, once no other future reads it.
pub(crate) async fn borrowed<F>(flash: &RefCell<F>) -> RefMut<'_, F> {
    poll_fn(|context| match flash.try_borrow_mut() {
        Ok(flash) => Poll::Ready(flash),
        Err(_) => {
            context.waker().wake_by_ref();
            Poll::Pending
        }
    })
    .await
}
