//! C's flash, of words, of pairs of numbers or of coded words, as the device that the proved store works on.

use crate::numbers::{Codes, Numbers};
use core::cell::Cell;
use core::ffi::c_void;
use core::mem::MaybeUninit;
use core::ptr::null;
use core::slice::from_raw_parts;
use ee_store::proved::{self, Coded, Cut, Flash as _, Pairs};
use ee_store::{Shape, Word};

type WordCall = unsafe extern "C" fn(*mut c_void, u32, u32, *mut u64) -> u32;
type WordsCall = unsafe extern "C" fn(*mut c_void, u32, u32, u32) -> *const u64;
type ProgramCall = unsafe extern "C" fn(*mut c_void, u32, u32, u64) -> u32;
type EraseCall = unsafe extern "C" fn(*mut c_void, u32) -> u32;

/// `ee_flash` of `ee.h`.
#[repr(C)]
pub struct Flash {
    context: *mut c_void,
    pub pages: u32,
    pub page_words: u32,
    pub word: Option<WordCall>,
    pub program: Option<ProgramCall>,
    pub erase: Option<EraseCall>,
    /// 0 for words, 1 for pairs of numbers, 2 for those where an erase clears first, 3 for coded words.
    pub kind: u32,
    pub words: Option<WordsCall>,
}

impl Flash {
    fn has(&self, page: usize) -> bool {
        page < 2 * self.pages as usize
    }

    fn has_pairs(&self) -> bool {
        matches!(self.kind, 1 | 2)
    }

    fn is_coded(&self) -> bool {
        self.kind == 3
    }
}

/// What `word` answers where the word can't be read: `EE_TORN` of `ee.h`. Of all others but 0 the read itself failed.
const TORN: u32 = 0x00ee_7042;

/// A flash in C while it is on, and null from a read or a step on that failed, or a page that it doesn't have: then no step is
/// made, and what the proved store says counts for nothing. It stands in the memory that C lends.
pub type Power = Cell<*const Flash>;

/// The device of words, which are pairs of numbers where the flash has those.
#[derive(Clone, Copy)]
pub struct Device {
    power: *const Power,
    pub(crate) shape: Shape,
}

impl Device {
    /// The device on a flash of this shape, none of whose functions is null. The pointer is good while the device is used,
    /// and what it shows is null or such a flash.
    pub unsafe fn new(power: *const Power, shape: Shape) -> Device {
        Device { power, shape }
    }

    fn power(&self) -> &Power {
        // SAFETY: as of `new`.
        unsafe { &*self.power }
    }

    /// C's flash, while it is on.
    pub(crate) fn flash(&self) -> Option<&Flash> {
        // SAFETY: as of `new`; and C keeps what it shows while the store is open.
        unsafe { self.power().get().as_ref() }
    }

    fn turn_off(&self) {
        self.power().set(null());
    }

    /// Its numbers, while it is on and has some.
    pub fn numbers(&self) -> Option<Numbers<'_>> {
        let flash = self.flash().filter(|flash| flash.has_pairs())?;
        Some(self.numbers_of(flash))
    }

    fn numbers_of<'a>(&self, flash: &'a Flash) -> Numbers<'a> {
        Numbers {
            device: *self,
            flash,
        }
    }

    /// Its coded words, while it is on and has some.
    pub fn codes(&self) -> Option<Coded<Codes<'_>>> {
        let flash = self.flash().filter(|flash| flash.is_coded())?;
        Some(self.codes_of(flash))
    }

    /// The pages of a set and the words of a page that coded words say, where they are others: 0 and 0 of plain words.
    pub fn other_shape(&self) -> Option<(usize, usize)> {
        let flash = self.flash().filter(|flash| flash.is_coded())?;
        let device = *self;
        let (_, other) = Coded::of(Codes { device, flash }).err()?;
        // Where a read failed nothing is known.
        self.flash().map(|_| (other.pages, other.words))
    }

    fn codes_of<'a>(&self, flash: &'a Flash) -> Coded<Codes<'a>> {
        let device = *self;
        Coded::known(Codes { device, flash })
    }

    /// The word or the number of a page, `None` if it can't be read.
    pub(crate) fn found(&self, flash: &Flash, page: usize, at: usize) -> Option<u64> {
        let mut value = MaybeUninit::uninit();
        // SAFETY: as of `new`.
        let failed = unsafe {
            let call = flash.word.unwrap_unchecked();
            call(flash.context, page as u32, at as u32, value.as_mut_ptr())
        };
        if failed != 0 {
            self.unread(failed);
            return None;
        }
        // SAFETY: C says that it wrote the value.
        Some(unsafe { value.assume_init() })
    }

    /// So many words or numbers of a page from a place on, where C has them in memory.
    pub(crate) fn seen(
        &self,
        flash: &Flash,
        page: usize,
        at: usize,
        count: usize,
    ) -> Option<&[u64]> {
        let call = flash.words?;
        // SAFETY: as of `new`. C says that so many stand there until the next call of its functions, and the store looks at each
        // run before it asks for more.
        unsafe {
            let words = call(flash.context, page as u32, at as u32, count as u32).as_ref()?;
            Some(from_raw_parts(words, count))
        }
    }

    /// Asks for each word of a run. One that can't be read is 0.
    fn fill(&self, flash: &Flash, page: usize, at: usize, room: &mut [u64]) {
        for (place, number) in (at..).zip(room) {
            // SAFETY: as of `new`.
            let failed = unsafe {
                let call = flash.word.unwrap_unchecked();
                call(flash.context, page as u32, place as u32, number)
            };
            if failed != 0 {
                *number = 0;
                // No read follows one that failed, and what the room has then counts for nothing.
                if self.unread(failed) {
                    return;
                }
            }
        }
    }

    /// The same of a flash of pairs, whose words always stand in the room: it has none in memory, but two numbers for each.
    fn fill_pairs(&self, flash: &Flash, page: usize, at: usize, room: &mut [u64]) {
        Pairs::known(self.numbers_of(flash)).run(page, at, room);
    }

    /// A read ended with this number: whether the read itself failed, which turns the device off.
    pub(crate) fn unread(&self, failed: u32) -> bool {
        if failed != TORN {
            self.turn_off();
        }
        failed != TORN
    }

    /// C's flash, while it is on and has this page. Where it has not the device goes off.
    fn flash_with(&self, page: usize) -> Result<&Flash, Cut> {
        match self.flash() {
            Some(flash) if flash.has(page) => Ok(flash),
            _ => self.ended(1).and(Err(Cut)),
        }
    }

    /// A step ended with this number.
    fn ended(&self, failed: u32) -> Result<(), Cut> {
        if failed != 0 {
            self.turn_off();
            return Err(Cut);
        }
        Ok(())
    }

    /// Erases a page.
    pub(crate) fn erased(&self, page: usize) -> Result<(), Cut> {
        let flash = self.flash_with(page)?;
        // SAFETY: as of `new`.
        self.ended(unsafe {
            let call = flash.erase.unwrap_unchecked();
            call(flash.context, page as u32)
        })
    }

    /// Programs a word or a number of a page that the flash has.
    pub(crate) fn write(
        &self,
        flash: &Flash,
        page: usize,
        at: usize,
        value: u64,
    ) -> Result<(), Cut> {
        // SAFETY: as of `new`.
        self.ended(unsafe {
            let call = flash.program.unwrap_unchecked();
            call(flash.context, page as u32, at as u32, value)
        })
    }
}

impl proved::Flash for Device {
    fn shape(&self) -> Shape {
        self.shape
    }

    // A count at its end, to which no erase adds: nothing asks for one.
    fn wear(&self, _page: usize) -> u64 {
        u64::MAX
    }

    fn is_on(&self) -> bool {
        self.flash().is_some()
    }

    fn word(&self, page: usize, at: usize) -> Word {
        // Slots and pages are looked through within the shape. Only a move goes on from page to page, as far as words say that
        // change from look to look, and it asks for the first word of each page first.
        let flash = match self.flash() {
            Some(flash) if at != 0 || flash.has(page) => flash,
            _ => {
                self.turn_off();
                return Word::Torn;
            }
        };
        if flash.has_pairs() {
            return Pairs::known(self.numbers_of(flash)).word(page, at);
        }
        if flash.is_coded() {
            return self.codes_of(flash).word(page, at);
        }
        self.found(flash, page, at).map_or(Word::Torn, Word::from)
    }

    // As of `word`: only a page that is looked through from its first word on may be none of the flash.
    fn run<'a>(&'a self, page: usize, at: usize, room: &'a mut [u64]) -> &'a [u64] {
        match self.flash() {
            Some(flash) if at != 0 || flash.has(page) => {
                if flash.has_pairs() {
                    self.fill_pairs(flash, page, at, room);
                } else if let Some(words) = self.seen(flash, page, at, room.len()) {
                    return words;
                } else {
                    self.fill(flash, page, at, room);
                }
            }
            _ => self.turn_off(),
        }
        room
    }

    // What a device says that is off counts for nothing.
    fn number(&self, reading: u64) -> u64 {
        self.codes().map_or(reading, |codes| codes.number(reading))
    }

    fn in_clear(&self, reading: u64) -> u64 {
        self.codes()
            .map_or(reading, |codes| codes.in_clear(reading))
    }

    fn program(&mut self, page: usize, at: usize, value: u64) -> Result<(), Cut> {
        let flash = self.flash_with(page)?;
        if flash.has_pairs() {
            return Pairs::known(self.numbers_of(flash)).program(page, at, value);
        }
        if flash.is_coded() {
            return self.codes_of(flash).program(page, at, value);
        }
        self.write(flash, page, at, value)
    }

    fn erase(&mut self, page: usize) -> Result<(), Cut> {
        // A page is erased the same whatever it has.
        self.erased(page)
    }

    // As of `wear`: a cut adds nothing.
    fn cuts(&self) -> u64 {
        u64::MAX
    }

    // A function of C's may fail in any step.
    fn cuts_left(&self) -> Option<u64> {
        None
    }

    // No call turns it on again: C opens the store anew.
    fn power_on(&mut self) {}
}
