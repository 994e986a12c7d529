//! A driver by hand, for a part that programs words of 64 bits with ECC: `cargo run --example driver`.
//!
//! The part is memory here. Where a part has registers, comments say what stands in their place. Power is cut in a write, and
//! the next start finds what was stored.

use ee_store::{Address, Driver, Kind, Shape, Store, Word};

/// Two sets of one page of 256 words: 252 slots.
const SHAPE: Shape = match Shape::new(1, 256) {
    Some(shape) => shape,
    None => panic!("1 to 64 pages, 5 to 512 words"),
};
const VOLUME: Address = Address::at(1);

/// The part: its words, and the one that power was cut in.
struct Part {
    words: [[u64; 256]; 2],
    torn: Option<(usize, usize)>,
    /// How many steps end before power fails.
    steps_left: Option<u32>,
    /// Whether the flash goes on with a step from before a reset.
    is_busy: bool,
}

#[derive(Clone, Copy, Debug, PartialEq, Eq)]
enum Fault {
    /// The flash is at work, or isn't in its read mode.
    Busy,
    /// A step failed.
    Failed,
}

impl Part {
    // Power fails in a step: here by a count, on a part by itself.
    fn step(&mut self) -> Result<(), Fault> {
        match self.steps_left {
            Some(0) => Err(Fault::Failed),
            Some(left) => {
                self.steps_left = Some(left - 1);
                Ok(())
            }
            None => Ok(()),
        }
    }
}

impl Driver for Part {
    type Error = Fault;

    fn shape(&self) -> Shape {
        SHAPE
    }

    fn kind(&self) -> Kind {
        Kind::Coded
    }

    fn word(&self, page: usize, at: usize) -> Result<Word, Fault> {
        // A part waits until the flash is ready. If it doesn't get ready, that is a failed read: never `Word::Torn`.
        if self.is_busy {
            return Err(Fault::Busy);
        }
        // On an STM32: clear what the NMI's handler noted, read, a barrier, and look at the note.
        if self.torn == Some((page, at)) {
            return Ok(Word::Torn);
        }
        Ok(Word::from(self.words[page][at])) // all ones is an erased word
    }

    fn program(&mut self, page: usize, at: usize, value: u64) -> Result<(), Fault> {
        if let Err(fault) = self.step() {
            self.torn = Some((page, at));
            return Err(fault);
        }
        self.words[page][at] = value;
        // Read it back, and fail where it differs.
        match self.word(page, at)? == Word::Held(value) {
            true => Ok(()),
            false => Err(Fault::Failed),
        }
    }

    fn erase(&mut self, page: usize) -> Result<(), Fault> {
        self.step()?;
        self.words[page].fill(u64::MAX);
        self.torn = self.torn.filter(|torn| torn.0 != page);
        Ok(())
    }
}

fn main() -> Result<(), Box<dyn std::error::Error>> {
    let part = Part {
        words: [[u64::MAX; 256]; 2],
        torn: None,
        steps_left: None,
        is_busy: false,
    };
    let mut store = Store::open_or_format(part)?;
    store.write(VOLUME, 7)?;
    store.driver_mut().steps_left = Some(0);
    let cut = store.write(VOLUME, 8);
    assert!(!store.is_on());
    println!("power failed in a write: {}", cut.expect_err("it was cut"));

    // The core starts again before the flash is ready. The opening refuses, and writes nothing: it is made again, with pauses.
    // The driver is lent to it, and so is there still.
    let mut part = store.into_driver();
    part.steps_left = None;
    part.is_busy = true;
    let refused = Store::open_or_format(&mut part).expect_err("the flash is busy");
    println!("{refused}");
    part.is_busy = false;

    let store = Store::open_or_format(part)?;
    assert_eq!(store.read(VOLUME)?, Some(7));
    println!(
        "address {VOLUME} has {:?}, torn slots: {}",
        store.read(VOLUME)?,
        store.torn_slots()?
    );
    Ok(())
}
