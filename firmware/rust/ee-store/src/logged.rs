//! Answers and errors in the log of `defmt` 1, by the feature `defmt`: the texts are those of their `Display`.

use crate::ee_codec::Address;
use crate::ee_core::{Put, Rescued, Written};
use crate::error::{DriverError, Error, NorError, OpenError, Step, Unfit, READ_BACK};
use core::fmt::Debug;
use defmt::{Debug2Format, Format, Formatter};

impl Format for Address {
    fn format(&self, f: Formatter<'_>) {
        defmt::write!(f, "{=u16}", self.get());
    }
}

impl Format for Put {
    fn format(&self, f: Formatter<'_>) {
        defmt::write!(f, "address {} value {=u32}", self.address, self.value);
    }
}

impl Format for Rescued {
    fn format(&self, f: Formatter<'_>) {
        defmt::write!(
            f,
            "{=usize} bad words, {=usize} values",
            self.bad_words,
            self.live
        );
    }
}

impl Format for Written {
    fn format(&self, f: Formatter<'_>) {
        match self {
            Written::Appended => defmt::write!(f, "appended"),
            Written::Moved => defmt::write!(f, "moved"),
        }
    }
}

impl Format for Unfit {
    fn format(&self, f: Formatter<'_>) {
        defmt::write!(f, "{=str}", self.text());
    }
}

impl<E: Format> Format for DriverError<E> {
    fn format(&self, f: Formatter<'_>) {
        let DriverError {
            step,
            page,
            at,
            error,
        } = self;
        match step {
            Step::Erase => defmt::write!(
                f,
                "the driver failed to erase page {=usize}: {}",
                *page,
                error
            ),
            _ => defmt::write!(
                f,
                "the driver failed to {=str} word {=usize} of page {=usize}: {}",
                step.text(),
                *at,
                *page,
                error
            ),
        }
    }
}

impl<E: Format> Format for OpenError<E> {
    fn format(&self, f: Formatter<'_>) {
        match self {
            OpenError::Foreign { page, at } => {
                defmt::write!(
                    f,
                    "word {=usize} of page {=usize} is not the store's",
                    *at,
                    *page
                )
            }
            OpenError::OtherShape { pages, words } if *pages > 0 => {
                defmt::write!(
                    f,
                    "{=str}: pages {=usize}, words {=usize}",
                    self.text(),
                    *pages,
                    *words
                )
            }
            OpenError::Driver(error) => error.format(f),
            _ => defmt::write!(f, "{=str}", self.text()),
        }
    }
}

impl<E: Format> Format for Error<E> {
    fn format(&self, f: Formatter<'_>) {
        match self {
            Error::Duplicate(place) => {
                defmt::write!(f, "value {=usize} has an address of an earlier one", *place)
            }
            Error::TooShort(length) => defmt::write!(
                f,
                "the record has {=usize} bytes, and there is less space",
                *length
            ),
            Error::Driver(error) => error.format(f),
            Error::Open(error) => error.format(f),
            _ => defmt::write!(f, "{=str}", self.text()),
        }
    }
}

impl<E: Debug> Format for NorError<E> {
    fn format(&self, f: Formatter<'_>) {
        match self {
            NorError::Flash(error) => defmt::write!(f, "the flash failed: {}", Debug2Format(error)),
            NorError::ReadBack => defmt::write!(f, "{=str}", READ_BACK),
        }
    }
}
