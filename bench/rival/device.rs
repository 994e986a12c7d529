//! The flash device, its steps, and its image as text.

use crate::power::{Cut, Power, Tear};
use crate::text::{push_hex, push_number, Reader};

/// How an erased word reads. No word holds this number.
pub const ERASED: u64 = u64::MAX;

/// What a torn word is kept as. It is no element, receive word or mark; the bits of `Set::torn`
/// tell it from a word that holds 0.
const TORN: u64 = 0;

/// The words of a page before its slots.
pub const HEADER: usize = 4;

pub struct Device {
    pages: usize,
    words: usize,
    pub sets: [Set; 2],
    pub power: Power,
}

/// The pages of a set, with the slots of all of them in one row.
pub struct Set {
    pub headers: Vec<[u64; HEADER]>,
    pub slots: Vec<u64>,
    /// By page and word of the page.
    torn: Vec<bool>,
    wear: Vec<u64>,
}

impl Device {
    pub fn parse(text: &[u8]) -> Option<Device> {
        let mut reader = Reader::new(text);
        reader.expect(b"ee ")?;
        let pages = reader.number(64)? as usize;
        reader.expect(b" ")?;
        let words = reader.number(512)? as usize;
        reader.expect(b"\n")?;
        if pages < 1 || words < HEADER + 1 {
            return None;
        }
        let first = Set::parse(&mut reader, pages, words)?;
        let second = Set::parse(&mut reader, pages, words)?;
        let device = Device {
            pages,
            words,
            sets: [first, second],
            power: Power::new(),
        };
        reader.is_done().then_some(device)
    }

    pub fn text(&self) -> Vec<u8> {
        // Where every word is held, and with room for the wears.
        let mut out = Vec::with_capacity(32 + 2 * self.pages * (21 + 17 * self.words));
        out.extend_from_slice(b"ee ");
        push_number(&mut out, self.pages as u64);
        out.push(b' ');
        push_number(&mut out, self.words as u64);
        out.push(b'\n');
        for set in &self.sets {
            set.push_text(&mut out);
        }
        out
    }

    pub fn pages(&self) -> usize {
        self.pages
    }

    pub fn slots_per_page(&self) -> usize {
        self.words - HEADER
    }

    /// Programs a word of a header, unless it is written already.
    #[inline]
    pub fn mark(&mut self, set: usize, page: usize, at: usize, word: u64) -> Result<(), Cut> {
        let set = &mut self.sets[set];
        if set.headers[page][at] != ERASED {
            return Ok(());
        }
        let Some(tear) = self.power.begin_step() else {
            set.headers[page][at] = word;
            return Ok(());
        };
        set.cut_program(page, at, word, tear);
        Err(Cut)
    }

    /// Programs a slot, by its number in the set.
    #[inline]
    pub fn program_slot(&mut self, set: usize, slot: usize, word: u64) -> Result<(), Cut> {
        let set = &mut self.sets[set];
        let Some(tear) = self.power.begin_step() else {
            set.slots[slot] = word;
            return Ok(());
        };
        let (page, at) = set.place_of_slot(slot);
        set.cut_program(page, at, word, tear);
        Err(Cut)
    }

    pub fn erase(&mut self, set: usize, page: usize) -> Result<(), Cut> {
        let set = &mut self.sets[set];
        set.wear[page] = set.wear[page].saturating_add(1);
        let Some(tear) = self.power.begin_step() else {
            set.erase(page);
            return Ok(());
        };
        set.cut_erase(page, tear);
        Err(Cut)
    }
}

impl Set {
    fn parse(reader: &mut Reader, pages: usize, words: usize) -> Option<Set> {
        let mut set = Set {
            headers: Vec::with_capacity(pages),
            slots: Vec::with_capacity(pages * (words - HEADER)),
            torn: Vec::with_capacity(pages * words),
            wear: Vec::with_capacity(pages),
        };
        for _ in 0..pages {
            set.wear.push(reader.number(u64::MAX)?);
            let mut header = [ERASED; HEADER];
            for word in &mut header {
                *word = set.parse_word(reader)?;
            }
            set.headers.push(header);
            for _ in HEADER..words {
                let word = set.parse_word(reader)?;
                set.slots.push(word);
            }
            reader.expect(b"\n")?;
        }
        Some(set)
    }

    fn parse_word(&mut self, reader: &mut Reader) -> Option<u64> {
        reader.expect(b" ")?;
        let torn = reader.expect(b"?").is_some();
        self.torn.push(torn);
        if torn {
            return Some(TORN);
        }
        if reader.expect(b"-").is_some() {
            return Some(ERASED);
        }
        reader.hex().filter(|&word| word != ERASED)
    }

    fn push_text(&self, out: &mut Vec<u8>) {
        let slots = self.slots_per_page();
        let pages = self.headers.iter().zip(self.slots.chunks_exact(slots));
        let torn = self.torn.chunks_exact(HEADER + slots);
        for (((header, slots), torn), &wear) in pages.zip(torn).zip(&self.wear) {
            push_number(out, wear);
            for (&word, &torn) in header.iter().chain(slots).zip(torn) {
                out.push(b' ');
                match word {
                    ERASED => out.push(b'-'),
                    TORN if torn => out.push(b'?'),
                    word => push_hex(out, word),
                }
            }
            out.push(b'\n');
        }
    }

    fn slots_per_page(&self) -> usize {
        self.slots.len() / self.headers.len()
    }

    pub fn is_torn(&self, page: usize, at: usize) -> bool {
        self.torn[page * (HEADER + self.slots_per_page()) + at]
    }

    /// The same by the number of a slot in the set.
    pub fn is_slot_torn(&self, slot: usize) -> bool {
        let (page, at) = self.place_of_slot(slot);
        self.is_torn(page, at)
    }

    fn place_of_slot(&self, slot: usize) -> (usize, usize) {
        let slots = self.slots_per_page();
        (slot / slots, HEADER + slot % slots)
    }

    pub fn is_blank(&self, page: usize) -> bool {
        let slots = self.slots_per_page();
        self.headers[page] == [ERASED; HEADER]
            && self.slots[page * slots..][..slots]
                .iter()
                .all(|&word| word == ERASED)
    }

    fn erase(&mut self, page: usize) {
        let slots = self.slots_per_page();
        let words = HEADER + slots;
        self.headers[page] = [ERASED; HEADER];
        self.slots[page * slots..][..slots].fill(ERASED);
        self.torn[page * words..][..words].fill(false);
    }

    fn put(&mut self, page: usize, at: usize, word: u64, torn: bool) {
        let slots = self.slots_per_page();
        match at.checked_sub(HEADER) {
            None => self.headers[page][at] = word,
            Some(slot) => self.slots[page * slots + slot] = word,
        }
        self.torn[page * (HEADER + slots) + at] = torn;
    }

    /// Leaves of an erased word what a cut leaves that comes while it is programmed.
    fn cut_program(&mut self, page: usize, at: usize, word: u64, tear: Tear) {
        match tear {
            Tear::Nothing => {}
            Tear::Done => self.put(page, at, word, false),
            Tear::Torn | Tear::Mixed => self.put(page, at, TORN, true),
        }
    }

    /// Leaves of a page what a cut leaves that comes while it is erased.
    fn cut_erase(&mut self, page: usize, tear: Tear) {
        for at in 0..HEADER + self.slots_per_page() {
            let fate = match tear {
                Tear::Nothing => 0,
                Tear::Done => 1,
                Tear::Torn => 2,
                Tear::Mixed => at % 3,
            };
            match fate {
                0 => {}
                1 => self.put(page, at, ERASED, false),
                _ => self.put(page, at, TORN, true),
            }
        }
    }
}
