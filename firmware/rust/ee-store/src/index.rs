use crate::driver::Driver;
use crate::ee_codec::Address;
use crate::ee_core::OpenFault;
use crate::ee_flash::Flash;
use crate::ee_index::{Entry, LentIndex};
use crate::ee_pages::Layout;
use crate::ee_records::Finding;
use crate::error::OpenError;
use crate::store::{open_error, Finds, Store};
use core::fmt;

/// Memory for an index, with room for `N` addresses of four bytes each.
pub struct IndexMemory<const N: usize> {
    pub(crate) entries: [Entry; N],
}

impl<const N: usize> IndexMemory<N> {
    // What stands in a place that is not used.
    const UNUSED: Entry = (Address::at(1), 0);

    /// Memory that no store uses.
    #[must_use]
    pub const fn new() -> IndexMemory<N> {
        IndexMemory {
            entries: [Self::UNUSED; N],
        }
    }
}

impl<const N: usize> Default for IndexMemory<N> {
    fn default() -> IndexMemory<N> {
        IndexMemory::new()
    }
}

impl<const N: usize> fmt::Debug for IndexMemory<N> {
    fn fmt(&self, f: &mut fmt::Formatter<'_>) -> fmt::Result {
        f.debug_struct("IndexMemory").finish_non_exhaustive()
    }
}

impl Finds for LentIndex<'_> {
    fn find_anew<F: Flash>(&mut self, flash: &F, layout: &Layout) {
        self.read(flash, layout);
    }

    fn finding(&self) -> Finding {
        if self.is_given_up() {
            Finding::Together
        } else {
            Finding::Each
        }
    }
}

impl<D: Driver> Store<D> {
    /// This store, which finds values by an index in this memory from here on. It looks at each used slot once, and writes
    /// nothing.
    ///
    /// A read then looks at one word, and a move copies without looking for what is live. Where more addresses have a
    /// value than the memory has room for, the store gives the index up and looks through the slots again, as
    /// [`has_index`](Store::has_index) tells. A move or a `forget_all` behind which all have room brings it back.
    ///
    /// # Errors
    ///
    /// The driver failed in a read. Of a store that is off the answer is one that is off.
    pub fn with_index<const N: usize>(
        self,
        memory: &mut IndexMemory<N>,
    ) -> Result<Store<D, LentIndex<'_>>, OpenError<D::Error>> {
        let was_on = self.is_on();
        let store = self.store.with_lookup(LentIndex::new(&mut memory.entries));
        match store.flash.is_on() || !was_on {
            true => Ok(Store { store }),
            false => Err(open_error(&store.flash, OpenFault::Cut)),
        }
    }
}

impl<D: Driver> Store<D, LentIndex<'_>> {
    /// Whether it finds values by its index. If not, more addresses have a value than there is room for, and it looks
    /// through the slots.
    #[must_use]
    pub fn has_index(&self) -> bool {
        !self.store.known.lookup.is_given_up()
    }
}
