//! The store by its methods, over a part in memory that can be told to fail in a step.

use ee_store::{
    Address, Driver, DriverError, Error, Kind, OpenError, Put, Rescued, Shape, Step, Store, Wanted,
    Word, Written,
};
use std::cell::Cell;
use std::fmt;

/// What the part says when it fails, with the step that failed.
#[derive(Clone, Copy, Debug, PartialEq, Eq)]
struct Broken {
    step: u32,
}

impl fmt::Display for Broken {
    fn fmt(&self, f: &mut fmt::Formatter<'_>) -> fmt::Result {
        write!(f, "step {}", self.step)
    }
}

/// Two sets of one page of six words.
struct Part {
    words: [[Word; 6]; 2],
    steps: u32,
    /// The step that fails, and leaves its word or its page torn.
    fails_in: Option<u32>,
}

impl Part {
    fn new() -> Part {
        Part {
            words: [[Word::Erased; 6]; 2],
            steps: 0,
            fails_in: None,
        }
    }

    fn fails(&mut self) -> Result<(), Broken> {
        self.steps += 1;
        match self.fails_in {
            Some(step) if step == self.steps => Err(Broken { step }),
            _ => Ok(()),
        }
    }
}

impl Driver for Part {
    type Error = Broken;

    fn shape(&self) -> Shape {
        SHAPE
    }

    fn kind(&self) -> Kind {
        Kind::Words
    }

    fn word(&self, page: usize, at: usize) -> Result<Word, Broken> {
        Ok(self.words[page][at])
    }

    fn program(&mut self, page: usize, at: usize, value: u64) -> Result<(), Broken> {
        assert_eq!(self.words[page][at], Word::Erased);
        assert_ne!(value, u64::MAX);
        self.words[page][at] = Word::Torn;
        self.fails()?;
        self.words[page][at] = Word::Held(value);
        Ok(())
    }

    fn erase(&mut self, page: usize) -> Result<(), Broken> {
        self.words[page] = [Word::Torn; 6];
        self.fails()?;
        self.words[page] = [Word::Erased; 6];
        Ok(())
    }
}

const SHAPE: Shape = match Shape::new(1, 6) {
    Some(shape) => shape,
    None => panic!("1 to 64 pages, 5 to 512 words"),
};

/// What the driver said in a call that it failed in.
fn failed<T: fmt::Debug>(answer: Result<T, Error<Broken>>) -> Broken {
    match answer {
        Err(Error::Driver(failed)) => failed.error,
        other => panic!("{other:?}"),
    }
}

/// What the driver said in an opening that it failed in.
fn not_opened<T: fmt::Debug>(answer: Result<T, OpenError<Broken>>) -> Broken {
    match answer {
        Err(OpenError::Driver(failed)) => failed.error,
        other => panic!("{other:?}"),
    }
}

fn address(number: u16) -> Address {
    Address::new(number).unwrap()
}

/// The store with 1=11, no slot free and nothing pending.
fn full() -> Store<Part> {
    let mut store = Store::format(Part::new()).unwrap();
    assert_eq!(store.write(address(1), 10), Ok(Written::Appended));
    assert_eq!(store.write(address(1), 11), Ok(Written::Appended));
    store
}

/// The store, which fails in the step of this number from here on.
fn failing(store: Store<Part>, step: u32) -> Store<Part> {
    let mut part = store.into_driver();
    part.steps = 0;
    part.fails_in = Some(step);
    Store::open(part).unwrap()
}

#[test]
fn values_are_kept() {
    let mut store = full();
    assert_eq!(store.read(address(1)), Ok(Some(11)));
    assert_eq!(store.read(address(2)), Ok(None));
    assert_eq!(store.write(address(2), 5), Ok(Written::Moved));
    assert_eq!(store.pending(), Ok(1));
    assert_eq!(store.clean_step(), Ok(true));
    assert_eq!(store.clean_step(), Ok(false));
    assert_eq!(store.live_count(), Ok(2));
    assert_eq!((store.slots(), store.fill()), (Ok(2), Ok(2)));
    assert_eq!(store.generation(), Ok(2));
    assert_eq!(store.next_live(None), Ok(Some((address(1), 11))));
    assert_eq!(store.next_live(Some(address(1))), Ok(Some((address(2), 5))));
    assert_eq!(store.next_live(Some(address(2))), Ok(None));
}

#[test]
fn a_list_is_loaded() {
    let mut store = full();
    store.write(address(2), 5).unwrap();
    let wanted = |number, value| Wanted {
        address: address(number),
        value,
    };
    let mut list = [
        wanted(2, None),
        wanted(7, Some(9)),
        wanted(1, Some(0)),
        wanted(2, Some(4)),
    ];
    assert_eq!(store.load(&mut list), Ok(()));
    let found = [
        wanted(2, Some(5)),
        wanted(7, None),
        wanted(1, Some(11)),
        wanted(2, Some(5)),
    ];
    assert_eq!(list, found);
    store.forget(address(1)).unwrap();
    assert_eq!(store.load(&mut list[2..3]), Ok(()));
    assert_eq!((list[2].value, list[3].value), (None, Some(5)));
    assert_eq!(store.load(&mut []), Ok(()));
    let store = Store::off(store.into_driver());
    assert_eq!(store.load(&mut list), Err(Error::NotOpen));
    assert_eq!(list[0].value, Some(5));
}

#[test]
fn a_bad_word_is_rescued() {
    let mut part = full().into_driver();
    part.words[0][2] = Word::Held(7);
    let refused = Store::open(&mut part).err();
    assert_eq!(refused, Some(OpenError::Foreign { page: 0, at: 2 }));
    let (store, rescued) = Store::rescue(part).unwrap();
    let wanted = Rescued {
        bad_words: 1,
        live: 1,
    };
    assert_eq!(rescued, wanted);
    assert_eq!(store.read(address(1)), Ok(Some(11)));
    assert_eq!(store.generation(), Ok(2));
    let store = Store::open(store.into_driver()).unwrap();
    assert_eq!(store.read(address(1)), Ok(Some(11)));
}

#[test]
fn a_rescue_that_fails_is_made_again() {
    for step in 1..4 {
        let mut part = full().into_driver();
        part.words[0][2] = Word::Torn;
        part.words[0][3] = Word::Held(7);
        part.steps = 0;
        part.fails_in = Some(step);
        assert_eq!(not_opened(Store::rescue(&mut part)), Broken { step });
        let (store, _) = Store::rescue(part).unwrap();
        assert_eq!(store.read(address(1)), Ok(Some(11)));
    }
    let failed = Store::rescue(Part::new()).err().unwrap();
    assert_eq!(failed, OpenError::NothingBegun);
}

#[test]
fn refusals() {
    let mut store = full();
    assert_eq!(store.forget(address(2)), Err(Error::Absent));
    assert_eq!(store.write(address(2), 5), Ok(Written::Moved));
    assert_eq!(store.write(address(3), 6), Err(Error::Full));
    assert_eq!(store.forget(address(1)), Ok(Written::Moved));
    assert_eq!(store.read(address(1)), Ok(None));
}

#[test]
fn a_clear_takes_all_values_away() {
    let mut store = full();
    assert_eq!(store.forget_all(), Ok(true));
    assert_eq!((store.fill(), store.live_count()), (Ok(0), Ok(0)));
    assert_eq!((store.generation(), store.pending()), (Ok(2), Ok(1)));
    assert_eq!(store.read(address(1)), Ok(None));
    // No slot is used, so there is nothing to clear.
    assert_eq!(store.forget_all(), Ok(false));
    assert_eq!(store.generation(), Ok(2));
    assert_eq!(store.write(address(1), 12), Ok(Written::Appended));
    let store = Store::open(store.into_driver()).unwrap();
    assert_eq!(store.read(address(1)), Ok(Some(12)));
}

#[test]
fn a_clear_that_fails_is_done_or_not() {
    for step in 1..4 {
        let mut store = failing(full(), step);
        let error = Broken { step };
        assert_eq!(failed(store.forget_all()), error);
        assert_eq!(store.forget_all(), Err(Error::NotOpen));
        let mut store = Store::open(store.into_driver()).unwrap();
        // The second step commits the clear, and a torn mark does not.
        let value = if step < 3 { Some(11) } else { None };
        assert_eq!(store.read(address(1)), Ok(value));
        assert_eq!(store.forget_all(), Ok(step < 3));
    }
}

#[test]
fn a_forgotten_address_is_there_again() {
    let mut store = Store::format(Part::new()).unwrap();
    assert_eq!(store.write(address(7), 1), Ok(Written::Appended));
    assert_eq!(store.forget(address(7)), Ok(Written::Appended));
    assert_eq!(store.read(address(7)), Ok(None));
    assert_eq!(store.write(address(7), 2), Ok(Written::Moved));
    assert_eq!(store.read(address(7)), Ok(Some(2)));
}

#[test]
fn the_error_of_the_driver_comes_back() {
    for step in 1..=4 {
        let mut store = failing(full(), step);
        let error = Broken { step };
        assert_eq!(failed(store.write(address(2), 5)), error);
        assert_eq!(store.write(address(2), 5), Err(Error::NotOpen));
        assert_eq!(store.forget(address(1)), Err(Error::NotOpen));
        assert_eq!(store.clean_step(), Err(Error::NotOpen));
        assert_eq!(store.read(address(1)), Err(Error::NotOpen));
        assert_eq!(store.fill(), Err(Error::NotOpen));
        assert_eq!(store.pending(), Err(Error::NotOpen));
        let store = Store::open(store.into_driver()).unwrap();
        assert_eq!(store.read(address(1)), Ok(Some(11)));
        // The fourth step commits the move, and a torn mark does not.
        assert_eq!(store.read(address(2)), Ok(None));
    }
}

#[test]
fn a_move_that_failed_behind_its_commit_is_made() {
    let mut store = failing(full(), 5);
    let error = Broken { step: 5 };
    assert_eq!(failed(store.write(address(2), 5)), error);
    let store = Store::open(store.into_driver()).unwrap();
    assert_eq!(store.read(address(2)), Ok(Some(5)));
}

#[test]
fn errors_of_the_other_calls() {
    let error = Broken { step: 1 };
    let mut store = failing(full(), 1);
    assert_eq!(failed(store.forget(address(1))), error);
    let mut store = Store::open(store.into_driver()).unwrap();
    assert_eq!(store.write(address(2), 5), Ok(Written::Moved));
    let mut store = failing(store, 1);
    assert_eq!(failed(store.clean_step()), error);

    let mut part = Part::new();
    part.fails_in = Some(2);
    assert_eq!(not_opened(Store::format(&mut part)), Broken { step: 2 });
    assert_eq!(Store::open(&mut part).err(), Some(OpenError::NoLiveSet));
    assert!(Store::format(part).is_ok());
}

#[test]
fn a_flash_without_a_store() {
    let failed = Store::open(Part::new()).err().unwrap();
    assert_eq!(failed, OpenError::Unformatted);
    assert_eq!(failed.to_string(), "the flash is not formatted");

    let mut part = full().into_driver();
    part.words[0][4] = Word::Held(0);
    let failed = Store::open(part).err().unwrap();
    assert_eq!(failed, OpenError::Foreign { page: 0, at: 4 });
    assert_eq!(failed.to_string(), "word 4 of page 0 is not the store's");
}

#[test]
fn a_first_start_that_failed_is_made_again() {
    let mut part = Part::new();
    for step in 1..=3 {
        part.steps = 0;
        part.fails_in = Some(step);
        assert_eq!(
            not_opened(Store::open_or_format(&mut part)),
            Broken { step }
        );
        let refused = Store::open(&mut part).err().unwrap();
        assert_eq!(refused, OpenError::NoLiveSet);
    }
    part.fails_in = None;
    let mut store = Store::open_or_format(part).unwrap();
    assert_eq!((store.fill(), store.live_count()), (Ok(0), Ok(0)));
    assert_eq!(store.write(address(1), 10), Ok(Written::Appended));
    let store = Store::open_or_format(store.into_driver()).unwrap();
    assert_eq!(store.read(address(1)), Ok(Some(10)));
}

#[test]
fn a_start_formats_over_no_word() {
    let mut part = full().into_driver();
    part.words[0][1] = Word::Torn;
    let words = part.words;
    let failed = Store::open_or_format(&mut part).err().unwrap();
    assert_eq!(failed, OpenError::NoLiveSet);
    assert_eq!(part.words, words);
}

#[test]
fn a_start_formats_over_no_value_wherever_it_stands() {
    let value = full().into_driver().words[0][4];
    for (page, at) in [(0, 4), (0, 5), (1, 4), (1, 5)] {
        let mut part = Part::new();
        part.words[page][at] = value;
        let words = part.words;
        let failed = Store::open_or_format(&mut part).err().unwrap();
        assert_eq!(failed, OpenError::NoLiveSet);
        assert_eq!(part.words, words);
    }
}

#[test]
fn a_start_formats_over_headers() {
    let header = full().into_driver().words[0][0];
    assert_eq!(header, Word::Held(0xaaaa_aaaa_0000_0001));
    for at in 0..4 {
        let mut part = Part::new();
        part.words[1][at] = if at == 1 { Word::Torn } else { header };
        let store = Store::open_or_format(part).unwrap();
        assert_eq!(store.live_count(), Ok(0));
    }
}

#[test]
fn a_start_chooses_no_set_and_takes_no_foreign_word() {
    let mut part = full().into_driver();
    part.words[1] = part.words[0];
    let words = part.words;
    let failed = Store::open_or_format(&mut part).err().unwrap();
    assert_eq!(failed, OpenError::TwoLive);
    assert_eq!(part.words, words);
    let mut part = full().into_driver();
    part.words[0][4] = Word::Held(0);
    let words = part.words;
    let failed = Store::open_or_format(&mut part).err().unwrap();
    assert_eq!(failed, OpenError::Foreign { page: 0, at: 4 });
    assert_eq!(part.words, words);
}

#[test]
fn torn_slots_are_counted() {
    let mut store = failing(Store::format(Part::new()).unwrap(), 1);
    assert!(store.write(address(1), 10).is_err());
    assert_eq!(store.torn_slots(), Err(Error::NotOpen));
    let mut store = Store::open(store.into_driver()).unwrap();
    assert_eq!((store.torn_slots(), store.fill()), (Ok(1), Ok(1)));
    assert_eq!(store.write(address(1), 11), Ok(Written::Appended));
    assert_eq!(store.write(address(1), 12), Ok(Written::Moved));
    assert_eq!(store.torn_slots(), Ok(0));
}

#[test]
fn a_store_that_is_off() {
    let mut store = Store::off(full().into_driver());
    assert_eq!(store.read(address(1)), Err(Error::NotOpen));
    assert_eq!(store.write(address(1), 1), Err(Error::NotOpen));
    assert_eq!(store.slots(), Err(Error::NotOpen));
    let store = Store::open(store.into_driver()).unwrap();
    assert_eq!(store.read(address(1)), Ok(Some(11)));
}

#[test]
fn limits() {
    for (pages, words) in [
        (0, 5),
        (65, 5),
        (1, 4),
        (1, 513),
        (usize::MAX, 5),
        (1, usize::MAX),
    ] {
        assert_eq!(Shape::new(pages, words), None);
    }
    for (pages, words, slots) in [(1, 5, 1), (64, 5, 64), (1, 512, 508), (64, 512, 32512)] {
        let shape = Shape::new(pages, words).unwrap();
        assert_eq!(
            (shape.pages(), shape.words(), shape.slots()),
            (pages, words, slots)
        );
    }
    assert_eq!((Address::new(0), Address::new(65535)), (None, None));
    assert_eq!(address(1).get(), 1);
    assert_eq!(address(65534).get(), 65534);
    assert!(address(2) < address(10));
}

#[test]
fn words_of_all_ones_are_erased() {
    assert_eq!(Word::from(u64::MAX), Word::Erased);
    assert_eq!(Word::from(1), Word::Held(1));
    let mut part = Part::new();
    part.words = [[Word::Held(u64::MAX); 6]; 2];
    let failed = Store::open(part).err().unwrap();
    assert_eq!(failed, OpenError::Unformatted);
}

#[test]
fn a_driver_can_be_lent() {
    let mut part = Part::new();
    {
        let mut store = Store::format(&mut part).unwrap();
        assert_eq!(store.write(address(1), 10), Ok(Written::Appended));
    }
    assert_eq!(Store::open(part).unwrap().read(address(1)), Ok(Some(10)));
}

/// An error says what the driver was asked to do, and where.
#[test]
fn errors_are_told_in_words() {
    let mut store = failing(full(), 1);
    let error = store.write(address(2), 5).unwrap_err();
    let (step, page, at) = (Step::Program, 1, 0);
    let wanted = DriverError {
        step,
        page,
        at,
        error: Broken { step: 1 },
    };
    assert_eq!(error, Error::Driver(wanted));
    assert_eq!(
        error.to_string(),
        "the driver failed to program word 0 of page 1: Broken { step: 1 }"
    );
    let mut part = full().into_driver();
    part.words[1][5] = Word::Torn;
    (part.steps, part.fails_in) = (0, Some(2)); // behind the mark that the opening sets
    let error = Store::open(part).unwrap().clean_step().unwrap_err();
    assert_eq!(
        error.to_string(),
        "the driver failed to erase page 1: Broken { step: 2 }"
    );
    let told: Box<dyn std::error::Error> = Error::<Broken>::Duplicate(3).into();
    assert_eq!(told.to_string(), "value 3 has an address of an earlier one");
}

std::thread_local! {
    /// A word that reads torn at the next look.
    static TORN: Cell<Option<(usize, usize)>> = const { Cell::new(None) };
}

/// A part one of whose words reads torn once, and that sees to each place that is asked for.
struct Unsteady(Part);

impl Driver for Unsteady {
    type Error = Broken;

    fn shape(&self) -> Shape {
        SHAPE
    }

    fn kind(&self) -> Kind {
        Kind::Words
    }

    fn word(&self, page: usize, at: usize) -> Result<Word, Broken> {
        assert!(page < 2 && at < 6);
        if TORN.with(Cell::get) == Some((page, at)) {
            TORN.with(|torn| torn.set(None));
            return Ok(Word::Torn);
        }
        self.0.word(page, at)
    }

    fn program(&mut self, page: usize, at: usize, value: u64) -> Result<(), Broken> {
        assert!(page < 2 && at < 6);
        self.0.program(page, at, value)
    }

    fn erase(&mut self, page: usize) -> Result<(), Broken> {
        assert!(page < 2);
        self.0.erase(page)
    }
}

#[test]
fn no_step_is_made_outside_the_part() {
    let mut store = Store::format(Unsteady(Part::new())).unwrap();
    assert_eq!(store.write(address(1), 10), Ok(Written::Appended));
    assert_eq!(store.write(address(2), 20), Ok(Written::Appended));
    let values = [(3, 30), (1, 12)].map(|(number, value)| Put {
        address: address(number),
        value,
    });
    assert_eq!(store.write_all(&values), Err(Error::Full));
    // Where the count of addresses misses one, the move finds a third.
    TORN.with(|torn| torn.set(Some((0, 4))));
    assert_eq!(store.write_all(&values), Err(Error::Unsteady));
    assert_eq!(store.write_all(&values), Err(Error::NotOpen));
    let store = Store::open(store.into_driver()).unwrap();
    assert_eq!(store.read(address(1)), Ok(Some(10)));
    assert_eq!(store.read(address(2)), Ok(Some(20)));
}
