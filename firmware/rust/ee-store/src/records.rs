//! Records: bytes kept as a whole, behind the driver of a [`Store`].
use crate::driver::Driver;
use crate::ee_core::Put;
use crate::ee_records::{ReadFault as Unread, Record, RecordFault as Unwritten, TrimFault};
use crate::error::Error;
use crate::store::{Finds, Store};

impl<E> From<Unwritten> for Error<E> {
    fn from(fault: Unwritten) -> Error<E> {
        match fault {
            Unwritten::TooLong => Error::TooLong,
            // It takes no memory, and never says `Memory`. Where it was cut the part is off.
            Unwritten::Full | Unwritten::Memory => Error::Full,
            Unwritten::Spent => Error::Spent,
            Unwritten::Off | Unwritten::Cut => Error::Unsteady,
        }
    }
}

impl<D: Driver, L: Finds> Store<D, L> {
    /// Reads a record into the space that is lent, and gives its length in bytes, `None` if there is none. At `None` and at a
    /// fault the space may hold anything.
    ///
    /// # Errors
    ///
    /// The first [`Error`] that applies.
    pub fn read_record(
        &self,
        record: Record,
        space: &mut [u8],
    ) -> Result<Option<usize>, Error<D::Error>> {
        let store = self.running()?;
        let found = record.read(store, store.lookup().finding(), space);
        self.whole(found.map_err(|fault| match fault {
            Unread::Off => Error::NotOpen,
            Unread::TooLong(length) => Error::TooShort(length),
            Unread::Hurt => Error::Hurt,
        }))
    }

    /// Writes a record: after this call, and after a cut in it too, it has these bytes or is as it was. Each word of four
    /// bytes that changes takes a slot, the record's check another and its head a third. `false` if it has these bytes
    /// already: then nothing is written.
    ///
    /// # Errors
    ///
    /// The first [`Error`] that applies.
    pub fn write_record(&mut self, record: Record, bytes: &[u8]) -> Result<bool, Error<D::Error>> {
        let answer = record.write(self.change()?, bytes);
        self.whole(answer.map_err(Error::from))
    }

    /// Makes all of a write but its last value, and gives that, for [`write`](Store::write) or
    /// [`write_all`](Store::write_all): so several records and single values are written at once, or none is. `None` if the
    /// record has these bytes already. The record is as it was until the value is written; write it before the record is
    /// prepared or written again.
    ///
    /// # Errors
    ///
    /// The first [`Error`] that applies.
    pub fn prepare_record(
        &mut self,
        record: Record,
        bytes: &[u8],
    ) -> Result<Option<Put>, Error<D::Error>> {
        let answer = record.prepare(self.change()?, bytes);
        self.whole(answer.map_err(Error::from))
    }

    /// Takes a record away, by one slot. Its words stay until [`trim_record`](Store::trim_record), and take slots at moves.
    ///
    /// # Errors
    ///
    /// The first [`Error`] that applies: `Absent` if there is none.
    pub fn forget_record(&mut self, record: Record) -> Result<(), Error<D::Error>> {
        self.forget(record.base())?;
        Ok(())
    }

    /// Takes away the values that a record doesn't need, each by one slot: those of the words that changed, at the addresses
    /// that don't count, and of a record that is forgotten all. Each of them takes a slot at every move while it is there.
    ///
    /// # Errors
    ///
    /// The first [`Error`] that applies; it is never `Full`.
    pub fn trim_record(&mut self, record: Record) -> Result<(), Error<D::Error>> {
        let answer = record.trim(self.change()?);
        self.whole(answer.map_err(|fault| match fault {
            TrimFault::Spent => Error::Spent,
            TrimFault::Off | TrimFault::Cut => Error::Unsteady,
        }))
    }
}
