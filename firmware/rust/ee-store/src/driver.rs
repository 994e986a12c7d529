use crate::ee_flash::{Shape, Word};

/// How the store reads and writes the flash of a part.
///
/// The flash is two sets of as many pages, numbered from 0, those of the first set first; the words of a page are
/// numbered from 0 too. [`shape`](Driver::shape) says how many pages a set and how many words a page has. No page and no
/// word beyond that is asked for, whatever this driver answers.
///
/// What the store's promises rest on:
///
/// - The shape and the kind stay as they are.
/// - Before its first read the flash is ready and in its read mode, or the read fails. A parallel or serial NOR flash goes
///   on with an erase while the core restarts, and gives its status for words.
/// - A word reads the same until it is programmed or its page is erased, power cuts included, and then reads as it was
///   left.
/// - A call of `program` that is `Ok` leaves the word as given and all else as it was; one of `erase` that is `Ok`
///   leaves each word of the page erased and all else as it was.
/// - Where power fails in `program`, or it ends in an error, its word alone may have changed: it is erased still, holds
///   the number or is torn. Where that happens in `erase`, each word of its page is as before, erased or torn. What a pair
///   or a coded word may hold then is said at [`Kind`].
/// - No call of the store is made from inside one of these functions.
///
/// `&mut D` is a driver too: lend one that you want back behind an opening that is refused.
pub trait Driver {
    /// Why a word could not be read or programmed, or a page not be erased.
    type Error;

    /// The size of the flash. It is asked for once, when a store is opened.
    fn shape(&self) -> Shape;

    /// What a word is made of.
    fn kind(&self) -> Kind;

    /// What a word of a page holds. A word with an uncorrectable ECC error is [`Word::Torn`]; one that reads as all
    /// ones counts as erased. A driver that answers `Torn` for a read that failed lets a start erase every value.
    ///
    /// # Errors
    ///
    /// The read itself failed, as on a bus that isn't up, and nothing is known of the word. No step follows in the call of
    /// the store: it ends with this error, and the store is off then, as after an error of `program`.
    fn word(&self, page: usize, at: usize) -> Result<Word, Self::Error>;

    /// So many words of a page from a place on, where they stand in memory: all ones is an erased one. It is for speed alone,
    /// and a driver of a flash that is mapped has it. `None` where one of them can't be read, or where they stand in none;
    /// then [`read_run`](Driver::read_run) is asked.
    fn window(&self, page: usize, at: usize, count: usize) -> Option<&[u64]> {
        let _ = (page, at, count);
        None
    }

    /// Reads the words of a page from a place on into a room, as many as it has places for, 1 to 32: all ones for an erased
    /// word, 0 for a torn one. It asks [`word`](Driver::word) for each. A driver of a serial flash may read all at once.
    ///
    /// # Errors
    ///
    /// As of `word`.
    fn read_run(&self, page: usize, at: usize, room: &mut [u64]) -> Result<(), Self::Error> {
        for (place, number) in (at..).zip(room) {
            *number = self.word(page, place)?.number();
        }
        Ok(())
    }

    /// Programs a word, which reads as erased, with a value that is not all ones.
    ///
    /// # Errors
    ///
    /// The call of the store ends with this error, as it would end with power, and the store is off then: open it anew.
    fn program(&mut self, page: usize, at: usize, value: u64) -> Result<(), Self::Error>;

    /// Erases a page.
    ///
    /// # Errors
    ///
    /// As of `program`.
    fn erase(&mut self, page: usize) -> Result<(), Self::Error>;
}

/// What a word of a flash is made of. With pairs a page has twice as many numbers of 64 bits as `shape` says words: the driver
/// reads and programs these as words that are never torn, and the store makes a word of each two, a value beside its complement.
///
/// A number may be programmed by parts of 8, 16 or 32 bits, in any order.
///
/// Only [`Coded`](Kind::Coded) words say the shape of their store, so that an opening under another, and one of `Words`, is told.
#[derive(Clone, Copy, Debug, PartialEq, Eq)]
pub enum Kind {
    /// Words of 64 bits with error correction (ECC), so that one that a cut left half written is told: [`Word::Torn`]. That the
    /// ECC makes no other number of it is a premise, which ECCs of 72 bits break now and then: a new store takes `Coded`.
    Words,
    /// Pairs of numbers, whose cells go one way: from one to zero while a number is programmed, from zero to one while a page is
    /// erased. So what a cut leaves of a number that is programmed has every bit of the one asked for, and what it leaves of
    /// one that is erased has every bit that was there.
    Pairs,
    /// Pairs of numbers, where an erase may first clear the cells of its page, as on many serial flashes: take it where no manual
    /// says that an erase doesn't. A cut erase leaves any numbers. That no two of a word come out as each other's complement
    /// is a premise then: chance makes them of 64 bits, and of a word that a cut program tore of the few that it lacks.
    PairsClearing,
    /// Words of 64 bits with ECC, each with a check of 15 bits, in as much flash as `Words` and by the same driver. Cells go one
    /// way, as of `Pairs`, and a word reads as they are, with one bit turned by the ECC, or as torn: then none that a cut leaves
    /// reads as another, and one that no store wrote is torn. That a cut erase leaves an erased word erased, and makes none whole
    /// which an earlier cut had left torn, are premises.
    Coded,
}

impl<D: Driver> Driver for &mut D {
    type Error = D::Error;

    fn shape(&self) -> Shape {
        (**self).shape()
    }

    fn kind(&self) -> Kind {
        (**self).kind()
    }

    fn word(&self, page: usize, at: usize) -> Result<Word, D::Error> {
        (**self).word(page, at)
    }

    fn window(&self, page: usize, at: usize, count: usize) -> Option<&[u64]> {
        (**self).window(page, at, count)
    }

    fn read_run(&self, page: usize, at: usize, room: &mut [u64]) -> Result<(), D::Error> {
        (**self).read_run(page, at, room)
    }

    fn program(&mut self, page: usize, at: usize, value: u64) -> Result<(), D::Error> {
        (**self).program(page, at, value)
    }

    fn erase(&mut self, page: usize) -> Result<(), D::Error> {
        (**self).erase(page)
    }
}

impl From<u64> for Word {
    /// What a word holds that reads as this number: nothing, if it is all ones.
    fn from(number: u64) -> Word {
        match number {
            u64::MAX => Word::Erased,
            _ => Word::Held(number),
        }
    }
}
