use crate::driver::Driver;
use crate::ee_codec::Address;
use crate::ee_core::inner::{open_on, start_on, write_format};
use crate::ee_core::{
    self as proved, LiveBatch, Lookup, OpenFault, Put, Rescued, Slots, Variables, Wanted, Written,
};
use crate::ee_flash::{Cut, Flash, Shape};
use crate::ee_pages::{Layout, Side};
use crate::ee_records::Finding;
use crate::error::{Error, OpenError};
use crate::iter::Iter;
use crate::part::Part;
use crate::value::Value;
use core::fmt;

/// Variables of 32 bits, each with an address of 1 to 65534, kept in the flash behind a driver.
///
/// All that a call promises holds also if power fails in any word or page that it writes: once the store is opened
/// again, a change that was answered is there, one that was not is there as a whole or not at all, and nothing else
/// changed.
///
/// When its driver fails, in a step or in a read, the store is off: each call answers [`Error::NotOpen`] from there on, until
/// [`reopen`](Store::reopen).
///
/// It may go to another thread, but no two share it: a call that only reads notes where its driver failed.
///
/// `L` says how it finds values: it looks through the slots, or by an index in memory.
pub struct Store<D: Driver, L: Finds = Slots> {
    pub(crate) store: proved::Store<Part<D>, L>,
}

/// How a store finds values.
pub trait Finds: Lookup {
    /// Forgets what it knows, and learns what the slots say.
    fn find_anew<F: Flash>(&mut self, flash: &F, layout: &Layout);

    /// How the values of a record are found: each by an index, and else together.
    fn finding(&self) -> Finding;
}

impl Finds for Slots {
    fn find_anew<F: Flash>(&mut self, _flash: &F, _layout: &Layout) {}

    fn finding(&self) -> Finding {
        Finding::Together
    }
}

// What the layout of a store that is off says: nothing looks at it.
const NOWHERE: Layout = Layout {
    side: Side::First,
    generation: 0,
    fill: 0,
    current: 0,
};

// Refuses a part of coded words that holds a store of another shape, or of plain words.
fn refuse_other_shape<D: Driver>(part: &Part<D>) -> Result<(), OpenError<D::Error>> {
    let Some(other) = part.other_shape() else {
        return Ok(());
    };
    part.turn_off();
    Err(OpenError::OtherShape {
        pages: other.pages,
        words: other.words,
    })
}

// Why a part couldn't be opened of which the proved code says this.
pub(crate) fn open_error<D: Driver>(part: &Part<D>, fault: OpenFault) -> OpenError<D::Error> {
    let is_on = part.is_on();
    part.turn_off();
    match (is_on, part.why_off(), fault) {
        (true, _, OpenFault::Scan(fault)) => fault.into(),
        (false, Some(error), _) => OpenError::Driver(error),
        _ => OpenError::Unsteady,
    }
}

impl<D: Driver> Store<D> {
    /// Opens the store that the flash holds, as [`open`](Store::open) does, or makes the first one on a new part: where no set is
    /// live and each word behind a page's header is erased or torn. It is the call to make at each start: a first start in which
    /// power failed is made again, and no stored value is erased.
    ///
    /// Of [pairs](crate::Kind::Pairs) and [coded words](crate::Kind::Coded) it makes the first store only where all words are
    /// erased but the first two of page 0. A first start that was cut leaves no others. Where an erase clears first, page 0 may
    /// hold any numbers but a value.
    ///
    /// # Errors
    ///
    /// The first [`OpenError`] that applies.
    #[doc(alias = "mount")]
    #[doc(alias = "init")]
    #[doc(alias = "start")]
    pub fn open_or_format(driver: D) -> Result<Store<D>, OpenError<D::Error>> {
        let mut store = Store::off(driver);
        store.begin()?;
        let opened = match store.store.flash.may_be_new() {
            true => start_on(&mut store.store.flash),
            false => open_on(&mut store.store.flash),
        };
        store.opened(opened)?;
        Ok(store)
    }

    /// Opens the store that the flash holds. If power failed in a move, or just behind it, the marks are set that were
    /// left to set; otherwise nothing is written.
    ///
    /// # Errors
    ///
    /// The first [`OpenError`] that applies.
    pub fn open(driver: D) -> Result<Store<D>, OpenError<D::Error>> {
        let mut store = Store::off(driver);
        store.begin()?;
        let opened = open_on(&mut store.store.flash);
        store.opened(opened)?;
        Ok(store)
    }

    /// Makes a store with nothing in it, whatever the flash held: each page that is not blank is erased.
    ///
    /// Where power fails in it on a flash that held values, the openings may refuse what is left, or open a store with a part of
    /// those values, or with older ones. Format again.
    ///
    /// # Errors
    ///
    /// The driver failed. Format again.
    #[doc(alias = "erase_all")]
    pub fn format(driver: D) -> Result<Store<D>, OpenError<D::Error>> {
        let mut store = Store::off(driver);
        store.store.flash.begin_anew();
        let made = write_format(&mut store.store.flash);
        store.opened(made.map_err(|Cut| OpenFault::Cut))?;
        Ok(store)
    }

    /// Makes a store of what the slots of the flash say, whatever stands in it: the call behind an opening that refused since a
    /// word went bad. One word that went bad costs its own value, and no more: its address has an older one or none.
    /// `docs/PROMISES.md` in the repository has the premises. The values move to the other set, as in a write that finds no free
    /// slot. Of [pairs](crate::Kind::Pairs) and coded words, one that no store wrote is torn.
    ///
    /// It comes last. Under another shape than that of the firmware which wrote the store it destroys values, unless words are
    /// coded, and so it does on a flash that isn't ready to be read. So look at the shape, and open again with pauses, before it.
    ///
    /// Where pairs had such a word, its page waits to be erased, and the openings refuse the flash until it is. So call
    /// [`clean_step`](Store::clean_step) behind it until that answers `false`. If power fails while that page is erased, nothing
    /// is promised.
    ///
    /// # Errors
    ///
    /// The first [`OpenError`] that applies: `OtherShape`, `NothingBegun`, `Spent`, `Driver` or `Unsteady`.
    #[doc(alias = "repair")]
    pub fn rescue(driver: D) -> Result<(Store<D>, Rescued), OpenError<D::Error>> {
        let mut part = Part::new(driver);
        part.begin_anew();
        refuse_other_shape(&part)?;
        let (part, fault) = match proved::rescue(part) {
            Ok((store, rescued)) if store.flash().is_on() => return Ok((Store { store }, rescued)),
            Ok((store, _)) => (store.into_flash(), proved::RescueFault::Cut),
            Err(failed) => failed,
        };
        match (part.is_on(), fault) {
            (true, proved::RescueFault::NothingBegun) => Err(OpenError::NothingBegun),
            (true, proved::RescueFault::Spent) => Err(OpenError::Spent),
            _ => Err(open_error(&part, OpenFault::Cut)),
        }
    }

    /// A store that is off, as one is whose driver failed.
    #[must_use]
    pub fn off(driver: D) -> Store<D> {
        Store {
            store: proved::Store::of(Part::new(driver), NOWHERE),
        }
    }

    // Turns the part on, and refuses pairs that no store wrote, and for coded words another store.
    fn begin(&mut self) -> Result<(), OpenError<D::Error>> {
        let part = &mut self.store.flash;
        part.begin_anew();
        refuse_other_shape(part)?;
        let low = part.low_pair();
        match (low, part.is_on()) {
            (_, false) => Err(open_error(part, OpenFault::Cut)),
            (Some(low), true) => {
                part.turn_off();
                Err(OpenError::Foreign {
                    page: low.page,
                    at: low.word,
                })
            }
            (None, true) => Ok(()),
        }
    }
}

impl<D: Driver, L: Finds> Store<D, L> {
    // Takes what an opening found, of a part that didn't fail in it.
    fn opened(&mut self, opened: Result<Layout, OpenFault>) -> Result<(), OpenError<D::Error>> {
        let part = &self.store.flash;
        match opened {
            Ok(layout) if part.is_on() => {
                self.store.known.layout = layout;
                self.store.known.lookup.find_anew(part, &layout);
            }
            Ok(_) => {}
            Err(fault) => return Err(open_error(part, fault)),
        }
        match part.is_on() {
            true => Ok(()),
            false => Err(open_error(part, OpenFault::Cut)),
        }
    }

    /// The driver, as it is.
    #[must_use]
    pub fn into_driver(self) -> D {
        self.store.into_flash().driver
    }

    /// The driver.
    #[must_use]
    pub fn driver(&self) -> &D {
        &self.store.flash.driver
    }

    /// The driver, to be used for what isn't the store's. Its shape and the store's pages stay as they are.
    #[must_use]
    pub fn driver_mut(&mut self) -> &mut D {
        &mut self.store.flash.driver
    }

    /// The size of the flash, as the driver said when the store was opened.
    #[must_use]
    pub fn shape(&self) -> Shape {
        self.store.flash.shape()
    }

    /// Whether the store answers calls: it does until its driver fails, or a future that was to change it is dropped.
    #[must_use]
    pub fn is_on(&self) -> bool {
        self.store.flash.is_on() && !self.store.flash.is_busy.get()
    }

    /// Opens the store again in its place, as [`open`](Store::open) does, on or off: the way on after a call in which the driver
    /// failed. It reads all anew.
    ///
    /// # Errors
    ///
    /// Why the flash can't be opened. The store is off then.
    #[doc(alias = "power_on")]
    #[doc(alias = "recover")]
    pub fn reopen(&mut self) -> Result<(), OpenError<D::Error>> {
        self.store.flash.begin_anew();
        self.store.flash.is_busy.set(true);
        let answer = self.open_here();
        self.store.flash.is_busy.set(false);
        answer
    }

    // Opens the store on its part.
    fn open_here(&mut self) -> Result<(), OpenError<D::Error>> {
        refuse_other_shape(&self.store.flash)?;
        let opened = open_on(&mut self.store.flash);
        self.opened(opened)
    }

    // The store, while it is on.
    pub(crate) fn running(&self) -> Result<&proved::Store<Part<D>, L>, Error<D::Error>> {
        match self.is_on() {
            true => Ok(&self.store),
            false => Err(Error::NotOpen),
        }
    }

    // A change begins on a store that is on. Where it never ends, since its future is dropped, the store stays off.
    pub(crate) fn change(&mut self) -> Result<&mut proved::Store<Part<D>, L>, Error<D::Error>> {
        self.running()?;
        self.store.flash.is_busy.set(true);
        Ok(&mut self.store)
    }

    // The answer of a call that began on a store that is on: why its part went off where it did, since nothing that the proved
    // code says then counts.
    pub(crate) fn whole<T>(
        &self,
        answer: Result<T, Error<D::Error>>,
    ) -> Result<T, Error<D::Error>> {
        let part = &self.store.flash;
        part.is_busy.set(false);
        if part.is_on() {
            return answer;
        }
        Err(part.why_off().map_or(Error::Unsteady, Error::Driver))
    }

    /// The value of an address, `None` if it has none.
    ///
    /// # Errors
    ///
    /// The first [`Error`] that applies.
    #[doc(alias = "fetch_item")]
    pub fn read(&self, address: Address) -> Result<Option<u32>, Error<D::Error>> {
        let found = self.running()?.read(address);
        self.whole(Ok(found.unwrap_or(None)))
    }

    /// The value of an address, or this one if it has none.
    ///
    /// # Errors
    ///
    /// The first [`Error`] that applies.
    pub fn read_or(&self, address: Address, value: u32) -> Result<u32, Error<D::Error>> {
        Ok(self.read(address)?.unwrap_or(value))
    }

    /// The value of an address as a `bool`, an `i32` or an `f32`, `None` if it has none. Nothing in the flash says which of
    /// them was written.
    ///
    /// # Errors
    ///
    /// The first [`Error`] that applies.
    #[doc(alias = "get")]
    pub fn read_as<V: Value>(&self, address: Address) -> Result<Option<V>, Error<D::Error>> {
        Ok(self.read(address)?.map(V::from_bits))
    }

    /// Gives each entry of a list the value of its address, as [`read`](Store::read) would, by one look through the slots: the
    /// call with which a program that has settings starts. An address may stand in the list more than once.
    ///
    /// # Errors
    ///
    /// The first [`Error`] that applies. Behind [`Error::Driver`] the values in the list count for nothing.
    pub fn load(&self, entries: &mut [Wanted]) -> Result<(), Error<D::Error>> {
        let answer = self.running()?.load(entries);
        self.whole(answer.map_err(|_| Error::Unsteady))
    }

    /// Writes a `bool`, an `i32` or an `f32`, as [`write`](Store::write) does its bits.
    ///
    /// # Errors
    ///
    /// The first [`Error`] that applies.
    #[doc(alias = "set")]
    pub fn write_as<V: Value>(
        &mut self,
        address: Address,
        value: V,
    ) -> Result<Written, Error<D::Error>> {
        self.write(address, value.to_bits())
    }

    /// Writes what the function makes of the value of an address, `None` if it has none. Where that is the value which the
    /// address has, it writes nothing and answers `None`.
    ///
    /// # Errors
    ///
    /// The first [`Error`] that applies. Where the driver failed in the read, nothing was written.
    #[doc(alias = "modify")]
    pub fn update(
        &mut self,
        address: Address,
        change: impl FnOnce(Option<u32>) -> u32,
    ) -> Result<Option<Written>, Error<D::Error>> {
        let old = self.read(address)?;
        let value = change(old);
        if old == Some(value) {
            return Ok(None);
        }
        Ok(Some(self.write(address, value)?))
    }

    /// Writes a value, also one that the address has already. Where no slot is free it moves all variables to the other
    /// set, which erases the pages of that set that `clean_step` did not erase before.
    ///
    /// # Errors
    ///
    /// The first [`Error`] that applies.
    #[doc(alias = "store_item")]
    #[doc(alias = "insert")]
    pub fn write(&mut self, address: Address, value: u32) -> Result<Written, Error<D::Error>> {
        let answer = self.change()?.write(address, value);
        self.whole(answer.map_err(|fault| match fault {
            // It takes no memory, and never says `Memory`. Where it was cut the part is off.
            proved::WriteFault::Full | proved::WriteFault::Memory => Error::Full,
            proved::WriteFault::Spent => Error::Spent,
            proved::WriteFault::Off | proved::WriteFault::Cut => Error::Unsteady,
        }))
    }

    /// Writes these values at once: if power fails in this call too, all of them are there afterwards or none. A list of
    /// one is written as [`write`](Store::write) does. For more, all variables move to the other set, whether a slot is
    /// free or not; an address may stand in the list once.
    ///
    /// # Errors
    ///
    /// The first [`Error`] that applies.
    #[doc(alias = "transaction")]
    #[doc(alias = "commit")]
    pub fn write_all(&mut self, values: &[Put]) -> Result<Written, Error<D::Error>> {
        let answer = self.change()?.write_all(values);
        self.whole(answer.map_err(|fault| match fault {
            proved::WriteAllFault::Twice(place) => Error::Duplicate(place),
            proved::WriteAllFault::Full | proved::WriteAllFault::Memory => Error::Full,
            proved::WriteAllFault::Spent => Error::Spent,
            proved::WriteAllFault::Off | proved::WriteAllFault::Cut => Error::Unsteady,
        }))
    }

    /// Takes the value of an address away, as a write does.
    ///
    /// # Errors
    ///
    /// The first [`Error`] that applies.
    #[doc(alias = "remove_item")]
    #[doc(alias = "delete")]
    pub fn forget(&mut self, address: Address) -> Result<Written, Error<D::Error>> {
        let answer = self.change()?.forget(address);
        self.whole(answer.map_err(|fault| match fault {
            proved::ForgetFault::Absent => Error::Absent,
            proved::ForgetFault::Spent => Error::Spent,
            proved::ForgetFault::Off | proved::ForgetFault::Cut => Error::Unsteady,
        }))
    }

    /// Takes the values of all addresses away at once, with one move that copies nothing: if power fails in this call too,
    /// each address has its value afterwards or none has one. `false` if no slot is used: then it writes nothing. The words of
    /// the old values stay in the flash until their set is erased, as `clean_step` does it page by page.
    ///
    /// # Errors
    ///
    /// The first [`Error`] that applies.
    #[doc(alias = "clear")]
    #[doc(alias = "erase_all")]
    #[doc(alias = "factory_reset")]
    #[doc(alias = "remove_all")]
    pub fn forget_all(&mut self) -> Result<bool, Error<D::Error>> {
        let answer = self.change()?.clear();
        self.whole(answer.map_err(|fault| match fault {
            proved::ClearFault::Spent => Error::Spent,
            proved::ClearFault::Off | proved::ClearFault::Cut => Error::Unsteady,
        }))
    }

    /// Erases one page that waits to be erased, `false` if there is none. Called when there is time for it, it keeps
    /// erases out of writes.
    ///
    /// # Errors
    ///
    /// The first [`Error`] that applies.
    #[doc(alias = "garbage_collect")]
    #[doc(alias = "compact")]
    pub fn clean_step(&mut self) -> Result<bool, Error<D::Error>> {
        let answer = self.change()?.clean_step();
        self.whole(answer.map_err(|_| Error::Unsteady))
    }

    /// How many pages wait to be erased, 0 to 64.
    ///
    /// # Errors
    ///
    /// The first [`Error`] that applies.
    pub fn pending(&self) -> Result<usize, Error<D::Error>> {
        let count = self.running()?.pending();
        self.whole(Ok(count))
    }

    /// The slots of a set, 1 to 32512: as many changes as it takes, and as many addresses can have a value.
    ///
    /// # Errors
    ///
    /// The store is off.
    pub fn slots(&self) -> Result<usize, Error<D::Error>> {
        Ok(self.running()?.slots())
    }

    /// How many slots are used, torn ones too: 0 to the slots.
    ///
    /// # Errors
    ///
    /// The store is off.
    pub fn fill(&self) -> Result<usize, Error<D::Error>> {
        Ok(self.running()?.fill())
    }

    /// How many slots are torn: power failed while they were programmed, and they hold nothing until the next move.
    ///
    /// # Errors
    ///
    /// The first [`Error`] that applies.
    pub fn torn_slots(&self) -> Result<usize, Error<D::Error>> {
        let count = self.running()?.torn_slots();
        self.whole(Ok(count))
    }

    /// The generation of the live set, 1 to 4294967294: one more with each transfer.
    ///
    /// # Errors
    ///
    /// The store is off.
    pub fn generation(&self) -> Result<u32, Error<D::Error>> {
        Ok(self.running()?.generation())
    }

    /// How many addresses have a value, 0 to the slots.
    ///
    /// # Errors
    ///
    /// The first [`Error`] that applies.
    #[doc(alias = "len")]
    pub fn live_count(&self) -> Result<usize, Error<D::Error>> {
        let count = self.running()?.live_count();
        self.whole(Ok(count))
    }

    /// The next address above `after`, or of all if `after` is `None`, that has a value, with the value. `None` if there
    /// is none.
    ///
    /// # Errors
    ///
    /// The first [`Error`] that applies.
    pub fn next_live(
        &self,
        after: Option<Address>,
    ) -> Result<Option<(Address, u32)>, Error<D::Error>> {
        let found = self.running()?.next_live(after);
        self.whole(Ok(found))
    }

    /// All addresses that have a value, by rising address, with their values. It looks through the slots once for each
    /// 28 addresses, where [`next_live`](Store::next_live) looks once for each.
    ///
    /// A fault ends it.
    #[doc(alias = "fetch_all_items")]
    pub fn iter(&self) -> Iter<'_, D, L> {
        Iter::of(self)
    }

    // The next addresses above this one.
    pub(crate) fn next_batch(&self, after: Option<Address>) -> Result<LiveBatch, Error<D::Error>> {
        let batch = self.running()?.next_batch(after);
        self.whole(Ok(batch))
    }
}

impl<D: Driver, L: Finds> fmt::Debug for Store<D, L> {
    fn fmt(&self, f: &mut fmt::Formatter<'_>) -> fmt::Result {
        f.debug_struct("Store")
            .field("is_on", &self.is_on())
            .field("shape", &self.shape())
            .field("layout", &self.store.known.layout)
            .finish_non_exhaustive()
    }
}
