//! What the log shows of each answer, over the stub of `defmt`, is what `Display` says.

use defmt::{shown, Format, Formatter};
use ee_store::{
    Address, DriverError, Error, NorError, OpenError, Put, Rescued, Step, Unfit, Written,
};
use std::fmt::Display;

/// A driver's own error.
#[derive(Clone, Copy, Debug)]
struct Locked;

impl Format for Locked {
    fn format(&self, f: Formatter<'_>) {
        defmt::write!(f, "Locked");
    }
}

fn same<T: Display + Format>(error: T) {
    assert_eq!(shown(&error), error.to_string());
}

fn is_shown<T: Display + Format>(answer: &T, text: &str) {
    assert_eq!((&*shown(answer), &*answer.to_string()), (text, text));
}

const UNFITS: [Unfit; 8] = [
    Unfit::WriteSize,
    Unfit::ReadSize,
    Unfit::EraseSize,
    Unfit::Kind,
    Unfit::Offset,
    Unfit::Length,
    Unfit::Sector,
    Unfit::Capacity,
];

#[test]
fn errors_are_shown() {
    let mut all = vec![
        OpenError::OtherShape { pages: 2, words: 5 },
        OpenError::OtherShape { pages: 0, words: 0 },
        OpenError::Unformatted,
        OpenError::NoLiveSet,
        OpenError::TwoLive,
        OpenError::Foreign { page: 3, at: 17 },
        OpenError::NothingBegun,
        OpenError::Spent,
        OpenError::Unsteady,
    ];
    for step in [Step::Read, Step::Program, Step::Erase] {
        let error = DriverError {
            step,
            page: 3,
            at: 17,
            error: Locked,
        };
        same(error);
        same(Error::Driver(error));
        all.push(OpenError::Driver(error));
    }
    for unfit in UNFITS {
        same(unfit);
        all.push(unfit.into());
    }
    for error in all {
        same(error);
        same(Error::from(error));
    }
    for error in [
        Error::NotOpen,
        Error::Full,
        Error::Spent,
        Error::Duplicate(3),
        Error::Absent,
        Error::TooLong,
        Error::TooShort(3),
        Error::Hurt,
        Error::Unsteady,
    ] {
        same::<Error<Locked>>(error);
    }
    same(NorError::Flash(3));
    same(NorError::<u8>::ReadBack);
}

#[test]
fn answers_are_shown() {
    let (address, bad_words, live) = (Address::at(65534), 1, 2);
    is_shown(&address, "65534");
    is_shown(&Written::Appended, "appended");
    is_shown(&Written::Moved, "moved");
    is_shown(&Put { address, value: 7 }, "address 65534 value 7");
    is_shown(&Rescued { bad_words, live }, "1 bad words, 2 values");
}
