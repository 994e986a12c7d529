use crate::driver::Driver;
use crate::ee_codec::Address;
use crate::ee_core::{LiveBatch, Slots};
use crate::error::Error;
use crate::store::{Finds, Store};
use core::fmt;

/// The addresses of a store that have a value, by rising address, with their values: what [`Store::iter`] gives.
pub struct Iter<'a, D: Driver, L: Finds = Slots> {
    store: &'a Store<D, L>,
    batch: LiveBatch,
    /// How many of the batch it gave.
    given: usize,
    /// Behind which address the next look begins. `None` where no other look is to be made.
    next: Option<Option<Address>>,
}

impl<'a, D: Driver, L: Finds> Iter<'a, D, L> {
    pub(crate) fn of(store: &'a Store<D, L>) -> Iter<'a, D, L> {
        Iter {
            store,
            batch: LiveBatch::new(),
            given: 0,
            next: Some(None),
        }
    }
}

impl<D: Driver, L: Finds> Iter<'_, D, L> {
    /// The next address that has a value, with the value. `None` behind the last one, and behind an error.
    // It implements the trait where no call waits.
    #[allow(clippy::should_implement_trait, clippy::type_complexity)]
    pub fn next(&mut self) -> Option<Result<(Address, u32), Error<D::Error>>> {
        loop {
            if let Some(found) = self.batch.found.get(self.given) {
                self.given += 1;
                return Some(Ok(found));
            }
            let after = self.next.take()?;
            match self.store.next_batch(after) {
                Ok(batch) => self.batch = batch,
                Err(error) => return Some(Err(error)),
            }
            self.given = 0;
            self.next = self.batch.through.map(Some);
        }
    }
}

impl<D: Driver, L: Finds> fmt::Debug for Iter<'_, D, L> {
    fn fmt(&self, f: &mut fmt::Formatter<'_>) -> fmt::Result {
        f.debug_struct("Iter").finish_non_exhaustive()
    }
}
