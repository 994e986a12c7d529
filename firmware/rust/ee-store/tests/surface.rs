//! What a store offers beside its calls: opening in place, its driver, iteration, values of other types, faults that become
//! others.

use ee_store::{
    Address, Driver, DriverError, Error, Kind, NoAddress, OpenError, Put, Shape, Step, Store, Word,
    Written,
};
use std::cell::Cell;

#[derive(Clone, Copy, Debug, PartialEq, Eq)]
struct Down;

/// A part in memory, of which each step and each read fails while it is down.
struct Part {
    shape: Shape,
    words: Vec<Vec<u64>>,
    is_down: Cell<bool>,
    reads: Cell<usize>,
    /// A word whose program fails each time.
    stuck: Option<(usize, usize)>,
}

impl Part {
    fn blank(pages: usize, words: usize) -> Part {
        Part {
            shape: Shape::new(pages, words).unwrap(),
            words: vec![vec![u64::MAX; words]; 2 * pages],
            is_down: Cell::new(false),
            reads: Cell::new(0),
            stuck: None,
        }
    }

    fn is_up(&self) -> Result<(), Down> {
        match self.is_down.get() {
            true => Err(Down),
            false => Ok(()),
        }
    }
}

impl Driver for Part {
    type Error = Down;

    fn shape(&self) -> Shape {
        self.shape
    }

    fn kind(&self) -> Kind {
        Kind::Words
    }

    fn word(&self, page: usize, at: usize) -> Result<Word, Down> {
        self.is_up()?;
        self.reads.set(self.reads.get() + 1);
        Ok(Word::from(self.words[page][at]))
    }

    fn program(&mut self, page: usize, at: usize, value: u64) -> Result<(), Down> {
        self.is_up()?;
        if self.stuck == Some((page, at)) {
            return Err(Down);
        }
        self.words[page][at] = value;
        Ok(())
    }

    fn erase(&mut self, page: usize) -> Result<(), Down> {
        self.is_up()?;
        self.words[page].fill(u64::MAX);
        Ok(())
    }
}

const FIRST: Address = Address::at(1);
const LAST: Address = Address::at(65534);
// Getters can stand in constants.
const NUMBER: u16 = FIRST.get();
const SLOTS: usize = match Shape::new(2, 40) {
    Some(shape) => shape.slots(),
    None => 0,
};

/// What the driver said in a call that it failed in.
fn failed<T: std::fmt::Debug>(answer: Result<T, Error<Down>>) -> Down {
    match answer {
        Err(Error::Driver(failed)) => failed.error,
        other => panic!("{other:?}"),
    }
}

fn address(number: u16) -> Address {
    Address::new(number).unwrap()
}

fn store() -> Store<Part> {
    Store::format(Part::blank(2, 40)).unwrap()
}

#[test]
fn a_store_is_opened_in_its_place() {
    let mut store = store();
    assert_eq!(store.write(FIRST, 5), Ok(Written::Appended));
    store.driver().is_down.set(true);
    assert_eq!(failed(store.write(FIRST, 6)), Down);
    assert!(!store.is_on());
    assert!(matches!(store.reopen(), Err(OpenError::Driver(_))));
    assert_eq!(store.read(FIRST), Err(Error::NotOpen));
    store.driver_mut().is_down.set(false);
    assert_eq!(store.reopen(), Ok(()));
    assert!(store.is_on());
    assert_eq!((store.read(FIRST), store.fill()), (Ok(Some(5)), Ok(1)));
    assert_eq!(store.write(FIRST, 6), Ok(Written::Appended));
    // So is one that is on, also where its live set is another one than before.
    for value in 0..100 {
        store.write(FIRST, value).unwrap();
    }
    let generation = store.generation();
    let mut again = Store::off(store.into_driver());
    assert_eq!(again.reopen(), Ok(()));
    assert_eq!(again.generation(), generation);
    assert_eq!(again.reopen(), Ok(()));
    assert_eq!(again.read(FIRST), Ok(Some(99)));
}

#[test]
fn a_flash_without_a_store_is_not_opened_in_its_place() {
    let mut store = store();
    let words = store.shape().words();
    store.driver_mut().words.fill(vec![u64::MAX; words]);
    let fault = Err(OpenError::Unformatted);
    assert_eq!(store.reopen(), fault);
    assert!(!store.is_on());
    assert_eq!(store.write(FIRST, 1), Err(Error::NotOpen));
    assert!(Store::open_or_format(store.into_driver()).is_ok());
}

#[test]
fn a_slot_that_fails_each_time_is_left_by_a_list() {
    let mut store = store();
    store.write(FIRST, 5).unwrap();
    store.driver_mut().stuck = Some((0, 5));
    for _ in 0..3 {
        assert_eq!(failed(store.write(FIRST, 6)), Down);
        assert_eq!(store.reopen(), Ok(()));
    }
    let values = [(FIRST, 6), (address(2), 7)];
    let list = values.map(|(address, value)| Put { address, value });
    assert_eq!(store.write_all(&list), Ok(Written::Moved));
    assert_eq!(store.write(FIRST, 8), Ok(Written::Appended));
    assert_eq!(store.read(address(2)), Ok(Some(7)));
}

#[test]
fn values_one_after_another() {
    let mut store = store();
    assert_eq!(SLOTS, store.slots().unwrap());
    for number in 1..=50 {
        store.write(address(number), u32::from(number) * 3).unwrap();
    }
    for number in 18..=34 {
        store.forget(address(number)).unwrap();
    }
    let wanted: Vec<(Address, u32)> = (1..=50)
        .filter(|number| !(18..=34).contains(number))
        .map(|number| (address(number), u32::from(number) * 3))
        .collect();
    store.driver().reads.set(0);
    let found: Result<Vec<_>, _> = store.iter().collect();
    assert_eq!(found.as_ref(), Ok(&wanted));
    let looks = store.driver().reads.get().div_ceil(SLOTS);
    assert!(looks <= 5, "{looks} looks through the slots");
    assert_eq!((&store).into_iter().count(), wanted.len());
    let mut iter = store.iter();
    assert_eq!(iter.next(), Some(Ok(wanted[0])));
    store.driver().is_down.set(true);
    // The first look took along those of the first twenty-eight addresses that have a value: seventeen.
    assert_eq!(failed(iter.nth(16).unwrap()), Down);
    assert_eq!((iter.next(), iter.next()), (None, None));
    assert_eq!(store.iter().next(), Some(Err(Error::NotOpen)));
}

#[test]
fn values_of_other_types() {
    let mut store = store();
    assert_eq!(store.read_as::<f32>(FIRST), Ok(None));
    assert_eq!(store.write_as(FIRST, -1.5f32), Ok(Written::Appended));
    assert_eq!(store.read_as(FIRST), Ok(Some(-1.5f32)));
    for value in [i32::MIN, -1, 0, i32::MAX] {
        store.write_as(FIRST, value).unwrap();
        assert_eq!(store.read_as(FIRST), Ok(Some(value)));
    }
    for value in [true, false] {
        store.write_as(FIRST, value).unwrap();
        assert_eq!(store.read_as(FIRST), Ok(Some(value)));
    }
    store.write_as(FIRST, 7u32).unwrap();
    assert_eq!(store.read_as(FIRST), Ok(Some(true)));
    assert_eq!(store.read_or(FIRST, 9), Ok(7));
    assert_eq!(store.read_or(address(2), 9), Ok(9));
}

#[test]
fn a_value_is_updated() {
    let mut store = store();
    let count = |old: Option<u32>| old.unwrap_or(0) + 1;
    assert_eq!(store.update(FIRST, count), Ok(Some(Written::Appended)));
    assert_eq!(store.update(FIRST, count), Ok(Some(Written::Appended)));
    assert_eq!(store.read(FIRST), Ok(Some(2)));
    let stays = |old: Option<u32>| old.unwrap_or(0);
    assert_eq!(
        (store.update(FIRST, stays), store.fill()),
        (Ok(None), Ok(2))
    );
    // A value is written where there was none, also if nothing else would tell it from none.
    let written = Ok(Some(Written::Appended));
    assert_eq!(store.update(address(2), stays), written);
    store.driver().is_down.set(true);
    assert_eq!(failed(store.update(FIRST, count)), Down);
    assert_eq!(store.update(FIRST, count), Err(Error::NotOpen));
}

#[test]
fn addresses_and_stores_are_shown() {
    assert_eq!((NUMBER, u16::from(FIRST)), (1, 1));
    assert_eq!(Address::try_from(65534), Ok(LAST));
    for number in [0, 65535] {
        assert_eq!(Address::try_from(number), Err(NoAddress));
    }
    assert_eq!(format!("{:>5}", address(123)), "  123");
    assert_eq!(NoAddress.to_string(), "an address is 1 to 65534");
    let shown = format!("{:?}", store());
    assert!(
        shown.starts_with("Store { is_on: true, shape: Shape"),
        "{shown}"
    );
}

/// An opening and each call on the store, in a function of one error; and in one of any error.
fn all_calls(part: Part) -> Result<u32, Error<Down>> {
    let mut store = Store::open_or_format(part)?;
    let (address, value) = (FIRST, 2);
    store.write(FIRST, 1)?;
    store.write_all(&[Put { address, value }])?;
    store.forget(FIRST)?;
    store.forget_all()?;
    store.clean_step()?;
    store.slots()?;
    store.reopen()?;
    store.read_or(FIRST, 3)
}

fn any_error(part: Part) -> Result<u32, Box<dyn std::error::Error>> {
    Store::open_or_format(part)?.write(FIRST, 1)?;
    Ok(all_calls(Part::blank(1, 8))?)
}

#[test]
fn errors_become_others() {
    assert_eq!(all_calls(Part::blank(1, 8)), Ok(3));
    assert_eq!(any_error(Part::blank(1, 8)).unwrap(), 3);
    let part = Part::blank(1, 8);
    part.is_down.set(true);
    let wanted = OpenError::Driver(DriverError {
        step: Step::Read,
        page: 0,
        at: 0,
        error: Down,
    });
    assert_eq!(all_calls(part), Err(Error::Open(wanted)));
    let part = Part::blank(1, 8);
    part.is_down.set(true);
    let told = any_error(part).unwrap_err().to_string();
    assert_eq!(told, "the driver failed to read word 0 of page 0: Down");
}

/// A store goes to another task or thread where its driver does: it can stand in a resource of RTIC or behind a mutex.
const fn goes_elsewhere<T: Send>() {}
const _: () = goes_elsewhere::<Store<Part>>();
