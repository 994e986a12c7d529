//! The device that the proved sources work on: a driver, and whether it failed.

use crate::driver::{Driver, Kind};
use crate::ee_flash::{Cut, Flash, Shape, Word};
use crate::ee_nor::coded::{shape_of_mark, Coded, EccNor, OtherShape};
use crate::ee_nor::{LowPair, Nor, Pairs};
use crate::ee_pages::{blank_to, is_blank};
use crate::error::{DriverError, Step};
use core::cell::{Cell, RefCell};
use core::ops::{Deref, Range};

/// A driver, which is on until it fails or a place outside it is asked for.
///
/// A part that is off is asked for nothing. What the proved code answers after that counts for nothing either: each call
/// of the store looks at [`is_on`](Flash::is_on) before it answers.
pub(crate) struct Part<D: Driver> {
    pub(crate) driver: D,
    shape: Shape,
    /// How many pages may be asked for: those of both sets, and none once the part is off.
    pages: Cell<u16>,
    /// Whether a call that changes the store is under way, or began and never ended.
    pub(crate) is_busy: Cell<bool>,
    failed: Cell<Option<DriverError<D::Error>>>,
}

impl<D: Driver> Part<D> {
    /// A part that is off.
    pub(crate) fn new(driver: D) -> Part<D> {
        Part {
            shape: driver.shape(),
            driver,
            pages: Cell::new(0),
            is_busy: Cell::new(false),
            failed: Cell::new(None),
        }
    }

    /// The same part with its driver as it is now, on.
    pub(crate) fn begin_anew(&mut self) {
        self.shape = self.driver.shape();
        self.is_busy.set(false);
        self.power_on();
    }

    pub(crate) fn turn_off(&self) {
        self.pages.set(0);
    }

    /// What the driver said when the part went off: `None` where it went off since a place outside was asked for. By the proofs
    /// that happens only where words change between two looks.
    pub(crate) fn why_off(&self) -> Option<DriverError<D::Error>> {
        self.failed.take()
    }

    /// The first word of a pair of numbers that no store wrote.
    pub(crate) fn low_pair(&self) -> Option<LowPair> {
        match self.driver.kind() {
            Kind::Words | Kind::Coded => None,
            _ => Pairs::of(Numbers::of(self, ROOM)).err().map(|it| it.1),
        }
    }

    /// The other shape that the mark of a store of coded words says, or 0 and 0 of plain words. `None` where a read failed, too.
    pub(crate) fn other_shape(&self) -> Option<OtherShape> {
        let other = Coded::of(self.codes()?).err().map(|it| it.1);
        other.filter(|_| self.is_on())
    }

    /// Whether a first store may be made here: but for words only where no more is written than a first start that was cut
    /// leaves. It programs the first two words of page 0, and erases that page where it was cut before: such an erase leaves
    /// anything there if it clears the cells first, and else no others.
    pub(crate) fn may_be_new(&self) -> bool {
        match self.driver.kind() {
            Kind::Words => true,
            Kind::Coded => Coded::known(Codes(self)).may_be_new(),
            Kind::Pairs => !holds_more(self, None),
            Kind::PairsClearing => !holds_more(self, Some(Numbers::of(self, 1).read(0, 1))),
        }
    }

    // Whether there is such a word on a part that is on. Where it is outside the part goes off.
    fn has(&self, page: usize, at: usize) -> bool {
        let has = page < usize::from(self.pages.get()) && at < self.shape.words();
        if !has {
            self.turn_off();
        }
        has
    }

    // The answer of a driver that was asked for this: where it failed the part is off from here on.
    fn told<T>(&self, asked: (Step, usize, usize), answer: Result<T, D::Error>) -> Result<T, Cut> {
        let (step, page, at) = asked;
        answer.map_err(|error| {
            self.turn_off();
            self.failed.set(Some(DriverError {
                step,
                page,
                at,
                error,
            }));
            Cut
        })
    }

    // Its numbers, where its words are coded.
    fn codes(&self) -> Option<Codes<&Self>> {
        (self.driver.kind() == Kind::Coded).then_some(Codes(self))
    }

    // What the driver says of a word, or of the number of a coded one.
    fn said(&self, page: usize, at: usize) -> Word {
        if !self.has(page, at) {
            return Word::Torn;
        }
        let answer = self.driver.word(page, at);
        match self.told((Step::Read, page, at), answer) {
            Ok(Word::Held(number)) => Word::from(number),
            Ok(word) => word,
            Err(Cut) => Word::Torn,
        }
    }

    // Words of a page from a place on, or numbers of pairs, where the driver has so many in memory.
    fn window(&self, page: usize, at: usize, count: usize) -> Option<&[u64]> {
        let window = self.driver.window(page, at, count);
        window.filter(|words| words.len() == count)
    }

    // Programs a word, or a number of one. `program` leads here, and saw that the part is on and has the word.
    fn program_at(&mut self, page: usize, at: usize, word: usize, value: u64) -> Result<(), Cut> {
        let answer = self.driver.program(page, at, value);
        self.told((Step::Program, page, word), answer)
    }
}

/// Whether a word of pairs is written that a first start which was cut doesn't leave. Where an erase clears first the second number
/// of page 0 is given: a cut one leaves anything in that page, but by no likely chance the mark of a store of another kind there.
pub fn holds_more<F: Flash>(flash: &F, cleared: Option<u64>) -> bool {
    let shape = flash.shape();
    let is_no_mark = |it: &u64| *it != crate::ee_codec::MARK && shape_of_mark(*it).is_none();
    let from = cleared.filter(is_no_mark).map_or(2, |_| shape.words());
    let mut holds = blank_to(flash, 0, from) != shape.words();
    for page in 1..2 * shape.pages() {
        holds = holds || !is_blank(flash, page);
    }
    holds
}

impl<D: Driver> Flash for Part<D> {
    fn shape(&self) -> Shape {
        self.shape
    }

    // A count at its end, to which no erase adds: nothing asks for one.
    fn wear(&self, _page: usize) -> u64 {
        u64::MAX
    }

    fn is_on(&self) -> bool {
        self.pages.get() != 0
    }

    fn word(&self, page: usize, at: usize) -> Word {
        match self.driver.kind() {
            Kind::Words => self.said(page, at),
            Kind::Coded => Coded::known(Codes(self)).word(page, at),
            _ if !self.has(page, at) => Word::Torn,
            _ => Pairs::known(Numbers::of(self, 2)).word(page, at),
        }
    }

    // What the room has when the part is off counts for nothing. Coded words read as their numbers, of which 0 is none.
    fn run<'a>(&'a self, page: usize, at: usize, room: &'a mut [u64]) -> &'a [u64] {
        let count = room.len();
        if count == 0 || !self.has(page, at + count - 1) {
            return room;
        }
        if matches!(self.driver.kind(), Kind::Pairs | Kind::PairsClearing) {
            Pairs::known(Numbers::of(self, 2 * count)).run(page, at, room);
        } else if let Some(words) = self.window(page, at, count) {
            return words;
        } else {
            let answer = self.driver.read_run(page, at, room);
            let _ = self.told((Step::Read, page, at), answer);
        }
        room
    }

    fn number(&self, reading: u64) -> u64 {
        self.codes()
            .map_or(reading, |codes| Coded::known(codes).number(reading))
    }

    fn in_clear(&self, reading: u64) -> u64 {
        self.codes()
            .map_or(reading, |codes| Coded::known(codes).in_clear(reading))
    }

    // Steps stay out of the calls that make them: a call costs nothing beside a step of flash, and there are several.
    #[inline(never)]
    fn program(&mut self, page: usize, at: usize, value: u64) -> Result<(), Cut> {
        match self.driver.kind() {
            _ if !self.has(page, at) => Err(Cut),
            Kind::Words => self.program_at(page, at, at, value),
            Kind::Coded => Coded::known(Codes(self)).program(page, at, value),
            _ => Pairs::known(Numbers::of(self, 2)).program(page, at, value),
        }
    }

    #[inline(never)]
    fn erase(&mut self, page: usize) -> Result<(), Cut> {
        if !self.has(page, 0) {
            return Err(Cut);
        }
        let answer = self.driver.erase(page);
        self.told((Step::Erase, page, 0), answer)
    }

    // As of `wear`: a cut adds nothing.
    fn cuts(&self) -> u64 {
        u64::MAX
    }

    // A driver may fail in any step.
    fn cuts_left(&self) -> Option<u64> {
        None
    }

    fn power_on(&mut self) {
        self.failed.set(None);
        self.pages.set(2 * self.shape.pages() as u16);
    }
}

/// The most numbers that are read at once.
const ROOM: usize = 32;

/// A part that is lent, to be read alone or to be changed too.
trait Lent: Deref<Target = Part<Self::Driver>> {
    type Driver: Driver;

    fn part_mut(&mut self) -> Option<&mut Part<Self::Driver>> {
        None
    }
}

impl<D: Driver> Lent for &Part<D> {
    type Driver = D;
}

impl<D: Driver> Lent for &mut Part<D> {
    type Driver = D;

    fn part_mut(&mut self) -> Option<&mut Part<D>> {
        Some(self)
    }
}

/// The numbers of a part, as the proved words take them, who ask for none outside it. Its flash was looked through when it was
/// opened, and by the proofs each step and each cut keeps what that saw; so it is not looked through again. Of one that was rescued
/// the proofs hold as long as no erase of a page with a word that no store wrote is cut.
struct Numbers<P> {
    part: P,
    /// How many numbers are read at once, and those that were: their page and their places.
    count: usize,
    read: RefCell<(usize, Range<usize>, [u64; ROOM])>,
}

impl<P: Lent> Numbers<P> {
    fn of(part: P, count: usize) -> Numbers<P> {
        let count = count.min(ROOM);
        let read = RefCell::new((0, 0..0, [0; ROOM]));
        Numbers { part, count, read }
    }
}

impl<P: Lent> Nor for Numbers<P> {
    fn shape(&self) -> Shape {
        self.part.shape
    }

    fn clears_first(&self) -> bool {
        self.part.driver.kind() == Kind::PairsClearing
    }

    fn wear(&self, _page: usize) -> u64 {
        u64::MAX
    }

    fn is_on(&self) -> bool {
        self.part.is_on()
    }

    // One that could not be read counts for nothing.
    fn read(&self, page: usize, at: usize) -> u64 {
        let (its_page, places, numbers) = &mut *self.read.borrow_mut();
        if self.part.is_on() && (*its_page != page || !places.contains(&at)) {
            let count = self.count.min(2 * self.part.shape.words() - at);
            let answer = self.part.driver.read_run(page, at, &mut numbers[..count]);
            let _ = self.part.told((Step::Read, page, at / 2), answer);
            (*its_page, *places) = (page, at..at + count);
        }
        numbers[at.wrapping_sub(places.start) % ROOM]
    }

    fn window(&self, page: usize, at: usize, count: usize) -> Option<&[u64]> {
        match self.part.is_on() {
            true => self.part.window(page, at, count),
            false => None,
        }
    }

    fn program(&mut self, page: usize, at: usize, number: u64) -> Result<(), Cut> {
        let part = self.part.part_mut().ok_or(Cut)?;
        part.program_at(page, at, at / 2, number)
    }

    fn erase(&mut self, page: usize) -> Result<(), Cut> {
        self.part.part_mut().ok_or(Cut)?.erase(page)
    }

    fn cuts(&self) -> u64 {
        u64::MAX
    }

    fn cuts_left(&self) -> Option<u64> {
        None
    }

    fn power_on(&mut self) {}
}

/// The same of a part of coded words, each of which is one number.
struct Codes<P>(P);

impl<P: Lent> EccNor for Codes<P> {
    fn shape(&self) -> Shape {
        self.0.shape
    }

    fn wear(&self, _page: usize) -> u64 {
        u64::MAX
    }

    fn is_on(&self) -> bool {
        self.0.is_on()
    }

    fn read(&self, page: usize, at: usize) -> Option<u64> {
        let word = self.0.said(page, at);
        (word != Word::Torn).then(|| word.number())
    }

    fn program(&mut self, page: usize, at: usize, number: u64) -> Result<(), Cut> {
        let part = self.0.part_mut().ok_or(Cut)?;
        part.program_at(page, at, at, number)
    }

    fn erase(&mut self, page: usize) -> Result<(), Cut> {
        self.0.part_mut().ok_or(Cut)?.erase(page)
    }

    fn cuts(&self) -> u64 {
        u64::MAX
    }

    fn cuts_left(&self) -> Option<u64> {
        None
    }

    fn power_on(&mut self) {}
}
