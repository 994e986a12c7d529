//! A driver that answers anything: whatever it says, no step and no read is asked for outside the part, and no call panics.
//!
//!     anything COUNT SEED
//!
//! makes so many calls on stores over parts of each kind. A look at a word gives what stands
//! there, or now and then anything: erased, torn, a mark, an element, any number, or an error; and a step is made, or fails,
//! or does nothing. A part sees to each page and place that is asked for. The last line is `N passed, 0 failed`, of N calls.
#![forbid(unsafe_code)]

use ee_store::{Address, Driver, Kind, Put, Shape, Store, Word};
use std::cell::Cell;
use std::{env, process};

/// The driver failed.
#[derive(Debug)]
struct Failed;

/// Numbers, of which a word has one, or two.
struct Part {
    shape: Shape,
    kind: Kind,
    numbers: Vec<Vec<u64>>,
    dice: Cell<u64>,
    /// One look in so many gives anything.
    odds: u64,
    /// One look or step in so many fails, none with 0.
    faults: u64,
}

impl Part {
    fn next(&self) -> u64 {
        let mut dice = self.dice.get();
        dice ^= dice << 13;
        dice ^= dice >> 7;
        dice ^= dice << 17;
        self.dice.set(dice);
        dice >> 8
    }

    fn below(&self, end: u64) -> u64 {
        self.next() % end
    }

    fn fails(&self) -> bool {
        self.faults != 0 && self.below(self.faults) == 0
    }

    /// A number that a store might have written, or any other.
    fn anything(&self) -> u64 {
        match self.below(8) {
            0 | 1 => u64::MAX,
            2 => 0xaaaa_aaaa_aaaa_aaaa,
            3 => 0xaaaa_aaaa_0000_0000 + self.below(4),
            4 | 5 => self.next() << 32 | (1 + self.below(40)),
            6 => self.next() << 32 | 1 << 16 | (1 + self.below(40)),
            _ => self.next() << 16 ^ self.next(),
        }
    }

    fn look(&self, page: usize, at: usize) -> Result<u64, Failed> {
        assert!(page < 2 * self.shape.pages(), "no page {page} is read");
        assert!(at < self.numbers[page].len(), "no place {at} is read");
        if self.fails() {
            return Err(Failed);
        }
        match self.below(self.odds) {
            0 => Ok(self.anything()),
            _ => Ok(self.numbers[page][at]),
        }
    }

    fn write(&mut self, page: usize, at: usize, number: u64) -> Result<(), Failed> {
        assert!(
            page < 2 * self.shape.pages(),
            "no page {page} is programmed"
        );
        assert!(at < self.numbers[page].len(), "no place {at} is programmed");
        if self.fails() {
            return Err(Failed);
        }
        self.numbers[page][at] &= number;
        Ok(())
    }

    fn clear(&mut self, page: usize) -> Result<(), Failed> {
        assert!(page < 2 * self.shape.pages(), "no page {page} is erased");
        if self.fails() {
            return Err(Failed);
        }
        if self.below(self.odds) > 0 {
            self.numbers[page].fill(u64::MAX);
        }
        Ok(())
    }
}

impl Driver for Part {
    type Error = Failed;

    fn shape(&self) -> Shape {
        self.shape
    }

    fn kind(&self) -> Kind {
        self.kind
    }

    fn word(&self, page: usize, at: usize) -> Result<Word, Failed> {
        let number = self.look(page, at)?;
        if matches!(self.kind, Kind::Pairs | Kind::PairsClearing) {
            return Ok(Word::from(number));
        }
        Ok(match self.below(4 * self.odds) {
            0 => Word::Torn,
            1 => Word::Held(number),
            _ => Word::from(number),
        })
    }

    fn program(&mut self, page: usize, at: usize, value: u64) -> Result<(), Failed> {
        self.write(page, at, value)
    }

    fn erase(&mut self, page: usize) -> Result<(), Failed> {
        self.clear(page)
    }
}

fn main() {
    let numbers: Vec<u64> = env::args().filter_map(|word| word.parse().ok()).collect();
    let [count, seed] = numbers[..] else {
        eprintln!("anything COUNT SEED");
        process::exit(2);
    };
    let dice = Cell::new(seed.wrapping_mul(0x9e37_79b9_7f4a_7c15) | 1);
    let mut calls = 0;
    for kind in [Kind::Words, Kind::Pairs, Kind::PairsClearing, Kind::Coded] {
        let mut made = 0;
        while made < count {
            made += play(part(&dice, kind));
        }
        calls += made;
    }
    println!("{calls} passed, 0 failed");
}

/// A blank part of any small shape.
fn part(dice: &Cell<u64>, kind: Kind) -> Part {
    let mut part = Part {
        shape: Shape::new(1, 5).unwrap(),
        kind,
        numbers: Vec::new(),
        dice: dice.clone(),
        odds: 1,
        faults: 0,
    };
    let words = 5 + part.below(6) as usize;
    part.shape = Shape::new(1 + part.below(3) as usize, words).unwrap();
    let per_word = match kind {
        Kind::Words | Kind::Coded => 1,
        Kind::Pairs | Kind::PairsClearing => 2,
    };
    part.numbers = vec![vec![u64::MAX; per_word * words]; 2 * part.shape.pages()];
    part.odds = [2, 10, 50, 300, 2000][part.below(5) as usize];
    part.faults = [0, 0, 30, 1000][part.below(4) as usize];
    dice.set(part.dice.get());
    dice.set(part.next() << 1 | 1);
    part
}

/// Opens a store in some way, and makes calls on it until it goes off. Gives how many calls that were.
fn play(part: Part) -> u64 {
    let opened = match part.below(8) {
        0 => Store::open(part),
        1..=4 => Store::open_or_format(part),
        5 | 6 => Store::format(part),
        _ => Store::rescue(part).map(|(store, _)| store),
    };
    match opened {
        Ok(store) => 1 + calls_on(store),
        Err(_) => 1,
    }
}

fn calls_on(mut store: Store<Part>) -> u64 {
    let seed = store.driver().next();
    if store.reopen().is_err() {
        return 1;
    }
    let mut dice = seed | 1;
    let mut below = |end: u64| {
        dice ^= dice << 13;
        dice ^= dice >> 7;
        dice ^= dice << 17;
        (dice >> 20) % end
    };
    for made in 1..200 {
        let address = Address::new(1 + below(40) as u16).unwrap();
        let value = below(1 << 32) as u32;
        match below(10) {
            0..=3 => drop(store.write(address, value)),
            4 => drop(store.forget(address)),
            5 => drop(store.clean_step()),
            6 | 7 => {
                let puts: Vec<Put> = (0..below(7))
                    .map(|i| Put {
                        address: Address::new(address.get() + i as u16).unwrap(),
                        value,
                    })
                    .collect();
                drop(store.write_all(&puts));
            }
            8 => drop((store.read(address), store.next_live(Some(address)))),
            _ => drop((store.live_count(), store.torn_slots(), store.pending())),
        }
        if store.slots().is_err() {
            return made + 1;
        }
    }
    200
}
