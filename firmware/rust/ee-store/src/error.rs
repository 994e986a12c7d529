use crate::ee_pages::ScanFault;
use core::fmt;

/// Why a store could not be opened, made or rescued: the first cause that applies. Nothing was written but where `Driver` or
/// `Unsteady` says so.
#[derive(Clone, Copy, Debug, PartialEq, Eq)]
#[non_exhaustive]
pub enum OpenError<E> {
    /// Sizes of the flash don't fit, or the place of the store in it.
    Unfit(Unfit),
    /// Of [coded words](crate::Kind::Coded): the flash holds a store of them of this other shape, or with 0 and 0 one of plain
    /// [words](crate::Kind::Words), by the mark in page 0, or in the first page of the second set as the driver's shape has it.
    /// It comes before all else that an opening says of the flash.
    OtherShape {
        /// Pages of each set, 1 to 64, or 0.
        pages: usize,
        /// Words of a page, 5 to 512, or 0.
        words: usize,
    },
    /// Every word is erased, so there is no store to open: [`open_or_format`](crate::Store::open_or_format) makes one.
    Unformatted,
    /// No set is committed, and the flash isn't blank: it holds something else, or a `format` that was cut.
    NoLiveSet,
    /// Both sets are committed with one generation.
    TwoLive,
    /// A word that no store wrote, or that may not stand where it stands: the first one.
    Foreign {
        /// Its page, those of the first set first.
        page: usize,
        /// Its place in the page, in words.
        at: usize,
    },
    /// No set is begun, so there is nothing to rescue.
    NothingBegun,
    /// No generation is left for the move of a rescue.
    Spent,
    /// The driver failed. What was stored is there still. An opening sets marks at most, and a rescue moves: call it again.
    Driver(DriverError<E>),
    /// Words changed between two looks, as a brown-out can leave them. Nothing is promised of any value.
    Unsteady,
}

/// Why a call on a store failed: the first cause that applies. All but `Driver` and `Unsteady` leave the flash as it was.
#[derive(Clone, Copy, Debug, PartialEq, Eq)]
#[non_exhaustive]
pub enum Error<E> {
    /// The store is off, since its driver failed in a call before, or since the future of one was dropped:
    /// [`reopen`](crate::Store::reopen) it.
    NotOpen,
    /// More addresses would have a value than there are slots.
    Full,
    /// No generation is left for the move that the call needs: each was used, up to 4294967294.
    Spent,
    /// An address stands in a list twice: the first entry, counted from 0, whose address an earlier one has.
    Duplicate(usize),
    /// The address to be forgotten has no value.
    Absent,
    /// There are more bytes than the record takes. Nothing was written.
    TooLong,
    /// The record has so many bytes, and the space that was lent is shorter.
    TooShort(usize),
    /// A word of the record went bad, so its bytes and its check don't agree. A write gives it new bytes.
    Hurt,
    /// The driver failed in this call, and the store is off. The change is there as a whole or not at all, a list of values too,
    /// and nothing else changed.
    Driver(DriverError<E>),
    /// Words changed between two looks, as a brown-out can leave them, and the store is off. Nothing is promised of any value.
    Unsteady,
    /// The store could not be opened, where a function opens it and makes calls on it: an `OpenError` becomes one by `?`.
    Open(OpenError<E>),
}

/// What a driver failed to do, and where.
#[derive(Clone, Copy, Debug, PartialEq, Eq)]
pub struct DriverError<E> {
    /// What it was asked to do.
    pub step: Step,
    /// The page, those of the first set first.
    pub page: usize,
    /// The place of the word in the page; the first one, where several are read at once or a page is erased.
    pub at: usize,
    /// What it said.
    pub error: E,
}

/// What a driver is asked to do.
#[derive(Clone, Copy, Debug, PartialEq, Eq)]
pub enum Step {
    /// To read a word, or several from there on.
    Read,
    /// To program a word.
    Program,
    /// To erase a page.
    Erase,
}

/// Why a flash can't hold a store there. No flash was asked.
#[derive(Clone, Copy, Debug, PartialEq, Eq)]
#[non_exhaustive]
pub enum Unfit {
    /// `WRITE_SIZE` is none of 1, 2, 4, 8, 16 and 32 bytes.
    WriteSize,
    /// `READ_SIZE` doesn't divide 8 bytes, or the unit that is written where that is larger.
    ReadSize,
    /// `ERASE_SIZE` is no multiple of what the flash writes and reads at a time.
    EraseSize,
    /// The store doesn't begin where a sector of the flash does.
    Offset,
    /// The range is no even number of sectors, 2 to 128.
    Length,
    /// A sector has less than 5 words.
    Sector,
    /// A flash that writes less than 8 bytes at a time holds pairs, and one that writes more holds words.
    Kind,
    /// The store would end beyond the flash, or beyond 4 GiB.
    Capacity,
}

/// Why a [`NorDriver`](crate::nor::NorDriver) failed.
#[derive(Clone, Copy, Debug, PartialEq, Eq)]
#[non_exhaustive]
pub enum NorError<E> {
    /// The flash says so.
    Flash(E),
    /// The word or the page does not read back as it was written.
    ReadBack,
}

impl<E> From<OpenError<E>> for Error<E> {
    fn from(error: OpenError<E>) -> Error<E> {
        Error::Open(error)
    }
}

impl<E> From<Unfit> for Error<E> {
    fn from(unfit: Unfit) -> Error<E> {
        Error::Open(OpenError::Unfit(unfit))
    }
}

impl<E> From<Unfit> for OpenError<E> {
    fn from(unfit: Unfit) -> OpenError<E> {
        OpenError::Unfit(unfit)
    }
}

impl<E> From<ScanFault> for OpenError<E> {
    fn from(fault: ScanFault) -> OpenError<E> {
        match fault {
            ScanFault::Unformatted => OpenError::Unformatted,
            ScanFault::NoLiveSet => OpenError::NoLiveSet,
            ScanFault::TwoLive => OpenError::TwoLive,
            ScanFault::Foreign { page, at } => OpenError::Foreign { page, at },
        }
    }
}

pub(crate) const SPENT: &str = "no generation is left for a move";
pub(crate) const UNSTEADY: &str = "words of the flash changed between two looks";
pub(crate) const READ_BACK: &str = "the flash does not read back what was written";

impl<E> OpenError<E> {
    // What is said of it where nothing but its name is told.
    pub(crate) fn text(&self) -> &'static str {
        match self {
            OpenError::Unfit(unfit) => unfit.text(),
            OpenError::OtherShape { pages: 0, .. } => "the flash holds a store of plain words",
            OpenError::OtherShape { .. } => "the flash holds a store of another shape",
            OpenError::Unformatted => "the flash is not formatted",
            OpenError::NoLiveSet => "no set of the flash is live",
            OpenError::TwoLive => "both sets of the flash are live",
            OpenError::Foreign { .. } => "a word is not the store's",
            OpenError::NothingBegun => "no set of the flash is begun",
            OpenError::Spent => SPENT,
            OpenError::Driver(_) => "the driver failed",
            OpenError::Unsteady => UNSTEADY,
        }
    }
}

impl<E> Error<E> {
    pub(crate) fn text(&self) -> &'static str {
        match self {
            Error::NotOpen => "the store is off, since a call on it failed or was dropped",
            Error::Full => "more addresses would have a value than there are slots",
            Error::Spent => SPENT,
            Error::Duplicate(_) => "two values have one address",
            Error::Absent => "the address has no value",
            Error::TooLong => "there are more bytes than the record takes",
            Error::TooShort(_) => "the record has more bytes than there is space",
            Error::Hurt => "the record doesn't agree with its check",
            Error::Driver(_) => "the driver failed",
            Error::Unsteady => UNSTEADY,
            Error::Open(error) => error.text(),
        }
    }
}

impl Unfit {
    pub(crate) fn text(self) -> &'static str {
        match self {
            Unfit::WriteSize => "the flash writes none of 1, 2, 4, 8, 16 and 32 bytes at a time",
            Unfit::ReadSize => "what the flash reads at a time doesn't divide a number or a unit",
            Unfit::EraseSize => "a sector of the flash is no multiple of what it writes and reads",
            Unfit::Kind => "pairs are for a flash that writes less than 8 bytes, words and coded words for the others",
            Unfit::Offset => "the store doesn't begin where a sector of the flash does",
            Unfit::Length => "the range is not 2 to 128 sectors, an even number of them",
            Unfit::Sector => "a sector of the flash has fewer than 5 words",
            Unfit::Capacity => "the store ends beyond the flash",
        }
    }
}

impl Step {
    pub(crate) fn text(self) -> &'static str {
        match self {
            Step::Read => "read",
            Step::Program => "program",
            Step::Erase => "erase",
        }
    }
}

impl<E: fmt::Debug> fmt::Display for OpenError<E> {
    fn fmt(&self, f: &mut fmt::Formatter<'_>) -> fmt::Result {
        match self {
            OpenError::Foreign { page, at } => {
                write!(f, "word {at} of page {page} is not the store's")
            }
            OpenError::OtherShape { pages, words } if *pages > 0 => {
                write!(f, "{}: pages {pages}, words {words}", self.text())
            }
            OpenError::Driver(error) => fmt::Display::fmt(error, f),
            _ => f.write_str(self.text()),
        }
    }
}

impl<E: fmt::Debug> fmt::Display for Error<E> {
    fn fmt(&self, f: &mut fmt::Formatter<'_>) -> fmt::Result {
        match self {
            Error::Duplicate(place) => write!(f, "value {place} has an address of an earlier one"),
            Error::TooShort(length) => {
                write!(f, "the record has {length} bytes, and there is less space")
            }
            Error::Driver(error) => fmt::Display::fmt(error, f),
            Error::Open(error) => fmt::Display::fmt(error, f),
            _ => f.write_str(self.text()),
        }
    }
}

impl<E: fmt::Debug> fmt::Display for DriverError<E> {
    fn fmt(&self, f: &mut fmt::Formatter<'_>) -> fmt::Result {
        let DriverError {
            step,
            page,
            at,
            error,
        } = self;
        match step {
            Step::Erase => write!(f, "the driver failed to erase page {page}: {error:?}"),
            _ => write!(
                f,
                "the driver failed to {} word {at} of page {page}: {error:?}",
                step.text()
            ),
        }
    }
}

impl fmt::Display for Unfit {
    fn fmt(&self, f: &mut fmt::Formatter<'_>) -> fmt::Result {
        f.write_str(self.text())
    }
}

impl<E: fmt::Debug> fmt::Display for NorError<E> {
    fn fmt(&self, f: &mut fmt::Formatter<'_>) -> fmt::Result {
        match self {
            NorError::Flash(error) => write!(f, "the flash failed: {error:?}"),
            NorError::ReadBack => f.write_str(READ_BACK),
        }
    }
}

impl<E: fmt::Debug> core::error::Error for OpenError<E> {}
impl<E: fmt::Debug> core::error::Error for Error<E> {}
impl<E: fmt::Debug> core::error::Error for DriverError<E> {}
impl<E: fmt::Debug> core::error::Error for NorError<E> {}
impl core::error::Error for Unfit {}
