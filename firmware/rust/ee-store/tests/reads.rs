//! Reads that fail, on parts of words and of numbers: no step follows one, the call answers the driver's error, the store is
//! off, and nothing is lost.

use ee_store::{Address, Driver, Error, Kind, OpenError, Put, Shape, Step, Store, Wanted, Word};
use std::cell::Cell;
use std::collections::BTreeMap;

type Map = BTreeMap<u16, u32>;

/// The bus isn't up.
#[derive(Clone, Copy, Debug, PartialEq, Eq)]
struct Down;

/// A part in memory whose reads fail from one on, so many of them. No step may come behind such a read.
#[derive(Clone, Debug, PartialEq, Eq)]
struct Part {
    shape: Shape,
    /// Numbers of which a word is one, or two where it has pairs.
    numbers: Vec<Vec<u64>>,
    per_word: usize,
    reads: Cell<u64>,
    fails: std::ops::Range<u64>,
    failed: Cell<bool>,
}

impl Part {
    fn blank(pages: usize, words: usize, per_word: usize) -> Part {
        Part {
            shape: Shape::new(pages, words).unwrap(),
            numbers: vec![vec![u64::MAX; per_word * words]; 2 * pages],
            per_word,
            reads: Cell::new(0),
            fails: 0..0,
            failed: Cell::new(false),
        }
    }

    /// The same, with all reads whole, and none made yet.
    fn whole(mut self) -> Part {
        self.fails = 0..0;
        self.reads.set(0);
        self.failed.set(false);
        self
    }

    fn failing(&self, fails: std::ops::Range<u64>) -> Part {
        Part {
            fails,
            ..self.clone().whole()
        }
    }

    fn step(&mut self) -> Result<(), Down> {
        assert!(!self.failed.get(), "a step behind a read that failed");
        Ok(())
    }
}

impl Driver for Part {
    type Error = Down;

    fn shape(&self) -> Shape {
        self.shape
    }

    fn kind(&self) -> Kind {
        match self.per_word {
            1 => Kind::Words,
            _ => Kind::Pairs,
        }
    }

    fn word(&self, page: usize, at: usize) -> Result<Word, Down> {
        self.reads.set(self.reads.get() + 1);
        if self.fails.contains(&(self.reads.get() - 1)) {
            self.failed.set(true);
            return Err(Down);
        }
        Ok(Word::from(self.numbers[page][at]))
    }

    fn program(&mut self, page: usize, at: usize, number: u64) -> Result<(), Down> {
        self.step()?;
        assert_eq!(self.numbers[page][at], u64::MAX);
        self.numbers[page][at] = number;
        Ok(())
    }

    fn erase(&mut self, page: usize) -> Result<(), Down> {
        self.step()?;
        self.numbers[page].fill(u64::MAX);
        Ok(())
    }
}

fn address(number: u16) -> Address {
    Address::new(number).unwrap()
}

fn opened(part: &Part) -> Store<Part> {
    Store::open(part.clone()).unwrap()
}

fn held(store: &Store<Part>) -> Map {
    let mut map = Map::new();
    let mut after = None;
    while let Some((found, value)) = store.next_live(after).unwrap() {
        map.insert(found.get(), value);
        after = Some(found);
    }
    map
}

/// A part with a store on which so many writes were made, to five addresses.
fn written(mut part: Part, writes: u32) -> Part {
    let mut store = Store::format(part).unwrap();
    for value in 0..writes {
        store.write(address(1 + value as u16 % 5), value).unwrap();
    }
    part = store.into_driver();
    part.whole()
}

/// A call, which changes the map as it changes the store's. `None` where it ends well, `Some` where the driver failed in it.
type Call = fn(&mut Store<Part>, &mut Map) -> Option<()>;

fn driver_failed<T>(answer: Result<T, Error<Down>>) -> Option<()> {
    match answer {
        Ok(_) => None,
        Err(error) => {
            assert!(matches!(error, Error::Driver(_)), "{error}");
            Some(())
        }
    }
}

const WANTED: Wanted = Wanted {
    address: Address::at(4),
    value: None,
};

const CALLS: [Call; 10] = [
    |store, _| driver_failed(store.read(address(4))),
    |store, _| driver_failed(store.load(&mut [WANTED])),
    |store, _| driver_failed(store.next_live(None)),
    |store, _| driver_failed(store.live_count()),
    |store, _| driver_failed(store.pending()),
    |store, _| driver_failed(store.torn_slots()),
    |store, _| driver_failed(store.clean_step()),
    |store, map| {
        map.insert(2, 777);
        driver_failed(store.write(address(2), 777))
    },
    |store, map| {
        map.remove(&3);
        driver_failed(store.forget(address(3)))
    },
    |store, map| {
        map.extend([(1, 10), (9, 90)]);
        let values = [(1, 10), (9, 90)].map(|(number, value)| Put {
            address: address(number),
            value,
        });
        driver_failed(store.write_all(&values))
    },
];

/// Makes a call on copies of a part, of which each read fails in turn. Gives how many there are.
fn fail_everywhere(part: &Part, call: Call) -> u64 {
    let old = held(&opened(part));
    for read in 0.. {
        let opening = opened(part).into_driver().reads.get();
        let mut store = opened(&part.failing(opening + read..opening + read + 1));
        let mut new = old.clone();
        if call(&mut store, &mut new).is_none() {
            assert_eq!(held(&opened(&store.into_driver().whole())), new);
            return read;
        }
        assert_eq!(store.read(address(1)), Err(Error::NotOpen));
        assert_eq!(store.write(address(1), 1), Err(Error::NotOpen));
        let found = held(&opened(&store.into_driver().whole()));
        assert!(found == old || found == new, "read {read}: {found:?}");
    }
    unreachable!("a call ends")
}

#[test]
fn nothing_is_lost_by_a_read_that_fails_once() {
    for per_word in [1, 2] {
        // A slot free, none free, and pages that wait.
        for writes in [101, 120, 121] {
            let part = written(Part::blank(2, 34, per_word), writes);
            let failures: u64 = CALLS.iter().map(|call| fail_everywhere(&part, *call)).sum();
            assert!(failures > 300);
        }
    }
}

type Opening = fn(&mut Part) -> Result<(), OpenError<Down>>;

const OPENINGS: [Opening; 3] = [
    |part| Store::open_or_format(part).map(drop),
    |part| Store::open(part).map(drop),
    |part| Store::format(part).map(drop),
];

#[test]
fn a_start_on_a_bus_that_is_not_up_writes_nothing() {
    for per_word in [1, 2] {
        let part = written(Part::blank(1, 64, per_word), 55);
        for first in [0, 1, 2, 70, 130] {
            for reads in [1, 2, 64, 400, 505, u64::MAX / 2] {
                for opening in &OPENINGS[..2] {
                    let mut failing = part.failing(first..first + reads);
                    let Err(error) = opening(&mut failing) else {
                        assert!(first > 0);
                        continue;
                    };
                    let OpenError::Driver(error) = error else {
                        panic!("{error}")
                    };
                    assert_eq!((error.step, error.error), (Step::Read, Down));
                    assert_eq!(failing.numbers, part.numbers);
                    assert_eq!(held(&opened(&failing.whole())).len(), 5);
                }
            }
        }
    }
}

#[test]
fn a_first_start_and_a_format_take_no_step_behind_a_failed_read() {
    for per_word in [1, 2] {
        let blank = Part::blank(1, 6, per_word);
        for read in 0..200 {
            for opening in [OPENINGS[0], OPENINGS[2]] {
                let mut failing = blank.failing(read..read + 1);
                if let Err(error) = opening(&mut failing) {
                    assert!(matches!(error, OpenError::Driver(_)), "{error}");
                    assert!(Store::open_or_format(failing.whole()).is_ok());
                }
            }
        }
    }
}

/// The error names the word, whatever a word is made of.
#[test]
fn the_place_of_a_read_is_told() {
    for per_word in [1, 2] {
        let part = written(Part::blank(1, 6, per_word), 1);
        let reads = opened(&part).into_driver().reads.get();
        let mut store = opened(&part.failing(reads..u64::MAX));
        let Err(Error::Driver(error)) = store.write_all(&[]).and(store.read(address(1))) else {
            panic!("it is read")
        };
        assert_eq!((error.step, error.page, error.at), (Step::Read, 0, 4));
    }
}
