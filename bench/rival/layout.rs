//! Where a legal image has its live set, and how far that is used.

use crate::device::{Device, Set, ERASED, HEADER};

pub const MARK: u64 = 0xAAAA_AAAA_AAAA_AAAA;
pub const RECEIVE: u64 = 0xAAAA_AAAA_0000_0000;
pub const LAST_GENERATION: u32 = 4_294_967_294;

/// Words of a page's header.
pub const RECEIVE_AT: usize = 0;
pub const ACTIVE_AT: usize = 1;
pub const VALID_AT: usize = 2;
pub const ERASING_AT: usize = 3;

pub struct Layout {
    /// Which set is live.
    pub live: usize,
    pub generation: u32,
    pub fill: usize,
    /// The page in use, and the number of the slot behind its last one.
    pub page: usize,
    pub page_end: usize,
    /// Which pages of the other set are not blank, and how many.
    pub dirty: Vec<bool>,
    pub pending: usize,
}

impl Layout {
    /// None where the image is not legal.
    pub fn of(device: &Device) -> Option<Self> {
        let (live, generation) = match device.sets.each_ref().map(committed) {
            [Some(first), Some(second)] if first == second => return None,
            [Some(first), second] if Some(first) > second => (0, first),
            [_, Some(second)] => (1, second),
            _ => return None,
        };
        let slots = device.slots_per_page();
        let fill = legal_fill(&device.sets[live], generation, slots)?;
        let other = &device.sets[1 - live];
        let dirty: Vec<bool> = (0..device.pages())
            .map(|page| !other.is_blank(page))
            .collect();
        let pending = dirty.iter().filter(|&&dirty| dirty).count();
        let mut layout = Layout {
            live,
            generation,
            fill: 0,
            page: 0,
            page_end: 0,
            dirty,
            pending,
        };
        layout.fill_to(fill, slots);
        Some(layout)
    }

    fn fill_to(&mut self, fill: usize, slots_per_page: usize) {
        self.fill = fill;
        self.page = fill.saturating_sub(1) / slots_per_page;
        self.page_end = (self.page + 1) * slots_per_page;
    }

    /// Makes the other set the live one, with so many slots used. No page of the one that is left is
    /// blank.
    pub fn move_over(&mut self, fill: usize, slots_per_page: usize) {
        self.live = 1 - self.live;
        self.generation += 1;
        self.fill_to(fill, slots_per_page);
        self.dirty.fill(true);
        self.pending = self.dirty.len();
    }

    /// The lowest page of the other set that is not blank.
    pub fn first_dirty(&self) -> Option<usize> {
        if self.pending == 0 {
            return None;
        }
        self.dirty.iter().position(|&dirty| dirty)
    }

    /// Takes note that a page of the other set was erased.
    pub fn note_erased(&mut self, page: usize) {
        self.dirty[page] = false;
        self.pending -= 1;
    }
}

/// The generation of a set, if it is committed.
fn committed(set: &Set) -> Option<u32> {
    let [receive, active, ..] = set.headers[0];
    let generation = receive as u32;
    let is_receive =
        receive & !0xFFFF_FFFF == RECEIVE && (1..=LAST_GENERATION).contains(&generation);
    (is_receive && active == MARK).then_some(generation)
}

/// How many slots of the live set are written, if each of its words may stand in its place.
fn legal_fill(set: &Set, generation: u32, slots: usize) -> Option<usize> {
    let fill = set
        .slots
        .iter()
        .position(|&word| word == ERASED)
        .unwrap_or(set.slots.len());
    let is_slot = |slot: usize, word: u64| {
        let address = word as u16;
        let is_change = word >> 16 & 0xFFFE == 0 && (1..=65534).contains(&address);
        is_change || set.is_slot_torn(slot)
    };
    let (written, free) = set.slots.split_at(fill);
    let legal_slots = written
        .iter()
        .enumerate()
        .all(|(slot, &word)| is_slot(slot, word))
        && free.iter().all(|&word| word == ERASED);
    let legal_headers = set.headers.iter().enumerate().all(|(page, header)| {
        if page * slots > fill {
            return *header == [ERASED; HEADER];
        }
        let receive = RECEIVE | u64::from(generation);
        let may = |at: usize, word: u64| {
            header[at] == ERASED || header[at] == word || set.is_torn(page, at)
        };
        may(RECEIVE_AT, receive)
            && may(ACTIVE_AT, MARK)
            && may(VALID_AT, MARK)
            && header[ERASING_AT] == ERASED
    });
    (legal_slots && legal_headers).then_some(fill)
}
