//! The store: appends, transfers, clean steps and openings.

use crate::device::Device;
use crate::layout::{
    Layout, ACTIVE_AT, ERASING_AT, LAST_GENERATION, MARK, RECEIVE, RECEIVE_AT, VALID_AT,
};
use crate::power::{Cut, Tear};
use crate::ways::{element, forgetting, Way};

/// How a change was made.
pub enum Changed {
    Appended,
    Moved,
}

/// Why a call was not done.
pub enum Refused {
    Full,
    Absent,
    Spent,
    /// Power was cut in the call.
    Cut,
    /// No store is open.
    Off,
}

impl From<Cut> for Refused {
    fn from(_: Cut) -> Self {
        Refused::Cut
    }
}

/// A store, which is open as long as its device is on.
pub struct Store<W: Way> {
    device: Device,
    layout: Layout,
    way: W,
    /// The words that a transfer writes.
    moving: Vec<u64>,
}

impl<W: Way> Store<W> {
    /// Opens the store of a legal image, and sets the marks that a power cut left to set.
    pub fn open(device: Device) -> Option<Self> {
        let layout = Layout::of(&device)?;
        let way = W::open(&device.sets[layout.live].slots[..layout.fill]);
        let mut store = Store {
            device,
            layout,
            way,
            moving: Vec::new(),
        };
        store.finish_marks().ok()?;
        Some(store)
    }

    /// Turns power on and opens the store. Where it is open already nothing is done.
    pub fn turn_on(&mut self) -> Result<(), Cut> {
        if self.is_open() {
            return Ok(());
        }
        self.device.power.turn_on();
        self.layout = Layout::of(&self.device).expect("a cut leaves a legal image");
        self.way = W::open(&self.device.sets[self.layout.live].slots[..self.layout.fill]);
        self.finish_marks()
    }

    pub fn is_open(&self) -> bool {
        self.device.power.is_on()
    }

    /// Arms a cut: so many further steps pass, and the next is cut.
    pub fn arm(&mut self, passing: u64, tear: Tear) {
        self.device.power.arm(passing, tear);
    }

    pub fn read(&self, address: u16) -> Result<Option<u32>, Refused> {
        self.check_open()?;
        Ok(self.way.get(self.written(), address))
    }

    pub fn write(&mut self, address: u16, value: u32) -> Result<Changed, Refused> {
        self.check_open()?;
        let word = element(address, value);
        let changed = if self.has_room() {
            self.append(word)?
        } else {
            let had_value = self.collect(Some(word), address);
            if !had_value && self.moving.len() > self.slots() {
                return Err(Refused::Full);
            }
            self.transfer()?
        };
        self.way.put(address, Some(value));
        Ok(changed)
    }

    pub fn forget(&mut self, address: u16) -> Result<Changed, Refused> {
        let value = self.read(address)?.ok_or(Refused::Absent)?;
        let changed = if self.has_room() {
            self.append(forgetting(address, value))?
        } else {
            self.collect(None, address);
            self.transfer()?
        };
        self.way.put(address, None);
        Ok(changed)
    }

    /// Erases the lowest page of the other set that is not blank; false if there is none.
    pub fn clean(&mut self) -> Result<bool, Refused> {
        self.check_open()?;
        let Some(page) = self.layout.first_dirty() else {
            return Ok(false);
        };
        self.device.erase(1 - self.layout.live, page)?;
        self.layout.note_erased(page);
        Ok(true)
    }

    pub fn slots(&self) -> usize {
        self.device.pages() * self.device.slots_per_page()
    }

    pub fn fill(&self) -> usize {
        self.layout.fill
    }

    pub fn pending(&self) -> usize {
        self.layout.pending
    }

    /// How many addresses have a value.
    pub fn count(&mut self) -> usize {
        self.way
            .count(&self.device.sets[self.layout.live].slots[..self.layout.fill])
    }

    pub fn into_device(self) -> Device {
        self.device
    }

    fn check_open(&self) -> Result<(), Refused> {
        if self.is_open() {
            Ok(())
        } else {
            Err(Refused::Off)
        }
    }

    fn has_room(&self) -> bool {
        self.layout.fill < self.slots()
    }

    fn written(&self) -> &[u64] {
        &self.device.sets[self.layout.live].slots[..self.layout.fill]
    }

    fn append(&mut self, word: u64) -> Result<Changed, Cut> {
        let Store { device, layout, .. } = self;
        if layout.fill == layout.page_end {
            device.mark(layout.live, layout.page, VALID_AT, MARK)?;
            device.mark(layout.live, layout.page + 1, ACTIVE_AT, MARK)?;
            layout.page += 1;
            layout.page_end += device.slots_per_page();
        }
        device.program_slot(layout.live, layout.fill, word)?;
        layout.fill += 1;
        Ok(Changed::Appended)
    }

    /// Collects what a transfer writes: the change's own word, if it has one, and the elements of
    /// all addresses but the change's. Says whether that one has a value.
    fn collect(&mut self, change: Option<u64>, address: u16) -> bool {
        let written = &self.device.sets[self.layout.live].slots[..self.layout.fill];
        self.moving.clear();
        self.moving.extend(change);
        self.way.push_others(written, address, &mut self.moving)
    }

    /// Writes what was collected to the other set, and makes that one live.
    fn transfer(&mut self) -> Result<Changed, Refused> {
        if self.layout.generation == LAST_GENERATION {
            return Err(Refused::Spent);
        }
        while self.clean()? {}
        let slots = self.device.slots_per_page();
        let into = 1 - self.layout.live;
        let receive = RECEIVE | u64::from(self.layout.generation + 1);
        self.device.mark(into, 0, RECEIVE_AT, receive)?;
        for (page, words) in self.moving.chunks(slots).enumerate() {
            self.device.mark(into, page, RECEIVE_AT, receive)?;
            for (at, &word) in words.iter().enumerate() {
                self.device.program_slot(into, page * slots + at, word)?;
            }
        }
        self.device.mark(into, 0, ACTIVE_AT, MARK)?;
        self.layout.move_over(self.moving.len(), slots);
        self.finish_marks()?;
        Ok(Changed::Moved)
    }

    /// Sets the marks that a transfer or a cut left to set.
    fn finish_marks(&mut self) -> Result<(), Cut> {
        let Store { device, layout, .. } = self;
        for used_up in 0..layout.page {
            device.mark(layout.live, used_up, VALID_AT, MARK)?;
        }
        device.mark(layout.live, layout.page, ACTIVE_AT, MARK)?;
        for (page, _) in layout.dirty.iter().enumerate().filter(|(_, dirty)| **dirty) {
            device.mark(1 - layout.live, page, ERASING_AT, MARK)?;
        }
        Ok(())
    }
}
