//! A store with an index beside one without: the same random calls, with power cut in some, answer and leave the same, whether
//! the index has room for all variables or not.

use ee_store::{
    Address, Driver, Error, IndexMemory, Kind, LentIndex, OpenError, Put, Shape, Store, Word,
};
use std::cell::Cell;

const CALLS: u32 = 20_000;
const ADDRESSES: u32 = 8;

/// Power was cut, or a read failed.
#[derive(Clone, Copy, Debug, PartialEq, Eq)]
struct Down;

/// A row of numbers that look random.
struct Dice(u64);

impl Dice {
    fn below(&mut self, end: u32) -> u32 {
        self.0 ^= self.0 << 13;
        self.0 ^= self.0 >> 7;
        self.0 ^= self.0 << 17;
        (self.0 >> 32) as u32 % end
    }
}

/// A part in memory: two sets of two pages of eight words.
#[derive(Debug)]
struct Part {
    words: [[Word; 8]; 4],
    /// The step that is cut, counted down, and the read that fails.
    steps_left: Option<u32>,
    reads_left: Cell<Option<u32>>,
    reads: Cell<u32>,
}

impl Part {
    fn blank() -> Part {
        Part {
            words: [[Word::Erased; 8]; 4],
            steps_left: None,
            reads_left: Cell::new(None),
            reads: Cell::new(0),
        }
    }

    fn step(&mut self) -> Result<(), Down> {
        match &mut self.steps_left {
            Some(0) => Err(Down),
            Some(left) => {
                *left -= 1;
                Ok(())
            }
            None => Ok(()),
        }
    }
}

impl Driver for &mut Part {
    type Error = Down;

    fn shape(&self) -> Shape {
        Shape::new(2, 8).unwrap()
    }

    fn kind(&self) -> Kind {
        Kind::Words
    }

    fn word(&self, page: usize, at: usize) -> Result<Word, Down> {
        self.reads.set(self.reads.get() + 1);
        match self.reads_left.get() {
            Some(0) => return Err(Down),
            left => self.reads_left.set(left.map(|left| left - 1)),
        }
        Ok(self.words[page][at])
    }

    fn program(&mut self, page: usize, at: usize, value: u64) -> Result<(), Down> {
        assert_eq!(self.words[page][at], Word::Erased);
        self.words[page][at] = Word::Torn;
        self.step()?;
        self.words[page][at] = Word::Held(value);
        Ok(())
    }

    fn erase(&mut self, page: usize) -> Result<(), Down> {
        self.words[page] = [Word::Torn; 8];
        self.step()?;
        self.words[page] = [Word::Erased; 8];
        Ok(())
    }
}

fn address(number: u32) -> Address {
    Address::new(number as u16 + 1).unwrap()
}

fn started(part: &mut Part) -> Store<&mut Part> {
    Store::open_or_format(part).unwrap()
}

/// A call by chance, and what it answers.
fn called<D: Driver<Error = Down>, L: ee_store::Finds>(
    store: &mut Store<D, L>,
    kind: u32,
    at: Address,
    value: u32,
) -> String {
    let second = Address::new(at.get() % ADDRESSES as u16 + 1).unwrap();
    let puts = [(at, value), (second, value + 1)].map(|(address, value)| Put { address, value });
    match kind {
        0 => format!("{:?}", store.forget(at)),
        1 => format!("{:?}", store.clean_step()),
        2 => format!("{:?}", store.write_all(&puts)),
        3 => format!("{:?}", store.forget_all()),
        _ => format!("{:?}", store.write(at, value)),
    }
}

/// All that a store tells.
fn told<D: Driver<Error = Down>, L: ee_store::Finds>(store: &Store<D, L>) -> String {
    let values = (0..ADDRESSES).map(|number| store.read(address(number)));
    let values: Vec<_> = values.collect();
    let all: Vec<_> = store.iter().collect();
    let next = store.next_live(None);
    let live = store.live_count();
    format!("{values:?} {all:?} {next:?} {live:?} {store:?}")
}

#[test]
fn it_answers_and_leaves_the_same() {
    let mut dice = Dice(88_172_645_463_325_252);
    let (mut given_up, mut came_back, mut cuts) = (0, 0, 0);
    for _ in 0..CALLS / 50 {
        let (mut part, mut same) = (Part::blank(), Part::blank());
        let (mut small, mut large) = (IndexMemory::<5>::new(), IndexMemory::<8>::new());
        let has_room = dice.below(2) == 0;
        let mut had_index = true;
        for _ in 0..50 {
            let cut = (dice.below(6) == 0).then(|| dice.below(8));
            let kind = dice.below(16).min(dice.below(16));
            let (at, value) = (address(dice.below(ADDRESSES)), dice.below(1000));
            let mut plain = started(&mut part);
            plain.driver_mut().steps_left = cut;
            let answer = called(&mut plain, kind, at, value);
            let stands = told(&plain);
            plain.driver_mut().steps_left = None;
            let store = started(&mut same);
            let mut store = match has_room {
                true => store.with_index(&mut large),
                false => store.with_index(&mut small),
            }
            .unwrap();
            let before = store.has_index();
            store.driver_mut().steps_left = cut;
            assert_eq!(called(&mut store, kind, at, value), answer);
            assert_eq!(told(&store), stands);
            assert!(store.has_index() || !has_room || !store.is_on());
            given_up += u32::from(before && !store.has_index());
            came_back += u32::from(!before && store.has_index());
            cuts += u32::from(!store.is_on());
            had_index &= store.has_index();
            store.driver_mut().steps_left = None;
            assert_eq!(part.words, same.words);
        }
        assert!(had_index || !has_room || cuts > 0);
    }
    assert!(given_up > 100 && came_back > 100 && cuts > 1000);
}

#[test]
fn a_read_looks_at_one_word() {
    let mut part = Part::blank();
    let mut store = started(&mut part);
    for number in 0..6 {
        store.write(address(number), number).unwrap();
    }
    let mut memory = IndexMemory::<8>::new();
    let store = store.with_index(&mut memory).unwrap();
    let before = store.driver().reads.get();
    assert_eq!(store.read(address(0)), Ok(Some(0)));
    assert_eq!(store.read(address(7)), Ok(None));
    assert_eq!(store.driver().reads.get() - before, 1);
}

/// A move behind which there are as many values as places brings it back.
#[test]
fn it_comes_back_where_all_just_have_room() {
    let mut part = Part::blank();
    let mut memory = IndexMemory::<5>::new();
    let mut store = started(&mut part).with_index(&mut memory).unwrap();
    for number in 0..6 {
        assert!(store.has_index());
        store.write(address(number), number).unwrap();
    }
    assert!(!store.has_index());
    store.forget(address(5)).unwrap();
    while !store.has_index() {
        assert_eq!(store.generation(), Ok(1));
        store.write(address(0), 9).unwrap();
    }
    assert_eq!((store.generation(), store.fill()), (Ok(2), Ok(5)));
}

#[test]
fn a_read_that_fails_while_it_is_made_is_told() {
    let mut part = Part::blank();
    let mut store = started(&mut part);
    store.write(address(0), 1).unwrap();
    store.driver_mut().reads_left.set(Some(0));
    let mut memory = IndexMemory::<8>::new();
    let refused = store.with_index(&mut memory).err();
    assert!(matches!(refused, Some(OpenError::Driver(_))));
    part.reads_left.set(None);
    let store = started(&mut part).with_index(&mut memory).unwrap();
    assert_eq!(store.read(address(0)), Ok(Some(1)));
}

#[test]
fn it_is_opened_again_in_its_place() {
    let mut part = Part::blank();
    let mut memory = IndexMemory::<8>::new();
    let mut store: Store<&mut Part, LentIndex<'_>> =
        started(&mut part).with_index(&mut memory).unwrap();
    store.write(address(0), 1).unwrap();
    store.driver_mut().reads_left.set(Some(0));
    assert!(matches!(store.read(address(0)), Err(Error::Driver(_))));
    store.driver_mut().reads_left.set(None);
    assert_eq!(store.reopen(), Ok(()));
    assert!(store.has_index());
    assert_eq!(store.read(address(0)), Ok(Some(1)));
}
